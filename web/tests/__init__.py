"""Tests of the page in headless Chromium, as a person would use it."""
