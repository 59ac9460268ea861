"""The desk: what editors, testers and filing clerks see of the proved library. Plain code, tested and not proved."""
