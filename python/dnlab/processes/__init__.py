"""Subprocesses: how they start and end, and the progress of long work. Independent of reports."""
