#!/usr/bin/env bash
# Gradescope runs this once. The program needs nothing, and class/grade needs Python.
apt-get update && apt-get install -y python3
