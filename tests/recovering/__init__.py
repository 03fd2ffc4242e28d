"""`recover` by its rules in Python, straight and slow: what the proved program is compared with."""
