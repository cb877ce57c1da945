"""The judge's folders, so that its modules find each other by their names alone: `import folders` before them."""
import os
import sys

JUDGE = os.path.dirname(os.path.abspath(__file__))
STORED = os.path.join(JUDGE, 'stored')
sys.path[:0] = [os.path.join(JUDGE, folder) for folder in ('inputs', 'readings', 'compare')]
