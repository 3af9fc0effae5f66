li a0, 08               # no octal digit
