"""Tests of the scripts. They need no program, no prover and no network: python3 -m unittest discover -t . -s tools/tests"""
