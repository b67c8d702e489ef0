"""File formats: scenarios and reports, captures, rate traces, configurations of ipfw and tc."""
