"""What tools/report.py and batch/pages.py make their pages with."""
