"""Tests of hitch, on programs that are compiled without proof: python3 -m unittest discover -t . -s command/tests"""
