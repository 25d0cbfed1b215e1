# SPDX-License-Identifier: Apache-2.0
"""Tests of the clients: run by ../test_hopslintel.py."""
