"""Pictures and pages of reports and sweeps."""
