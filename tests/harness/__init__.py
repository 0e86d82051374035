"""What the test programs share: cases and how they are told (`cases`), servers (`server`), routers (`router`), viewers (`viewer`),
clocks, ports, what a process holds, logs, metrics, rows and a browser.
"""
