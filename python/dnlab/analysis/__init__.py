"""Analysis of a report: joined with its scenario, summarised, judged and compared."""
