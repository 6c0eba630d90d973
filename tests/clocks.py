#!/usr/bin/env python3
"""When the clocks of test sites change, in seconds since 1970 UTC."""
MINUTE, HOUR, DAY = 60, 3600, 86_400
FORWARD = 1710054000  # Sunday 2024-03-10 07:00 UTC, when the clock goes from 02:00 to 03:00
BACK = 1730613600  # Sunday 2024-11-03 06:00 UTC, when it goes from 02:00 to 01:00
# The settings of a site whose clock does so.
EASTERN = 'zone = "EST5EDT,M3.2.0,M11.1.0"'
