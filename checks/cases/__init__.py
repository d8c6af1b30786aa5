"""A module for each check that checks/list names, with '_' for '-'."""
