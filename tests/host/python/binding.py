"""Puts the binding's folder on the path, and the second model's behind it, for the tests beside this file."""
import os
import sys

HERE = os.path.dirname(os.path.abspath(__file__))
ROOT = os.path.abspath(os.path.join(HERE, '..', '..', '..'))
BINDING = os.path.join(ROOT, 'bindings', 'python')
HEADER = os.path.join(ROOT, 'bindings', 'c', 'quay.h')
MODEL = os.path.join(ROOT, 'tests', 'model')
SAMPLES = os.path.join(ROOT, 'samples')

sys.path[:0] = [BINDING, HERE]
sys.path.append(MODEL)
