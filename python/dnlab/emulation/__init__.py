"""Runs unmodified programs over Linux's own TCP and a link of dnlab, by a file that describes the hosts."""
