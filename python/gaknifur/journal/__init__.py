"""Journals as `etcs_lab` reports them: records, tables, database, report, charts and causes."""
