.ascii "two", "gether"          # no zero byte
.asciz "A\102\n"                # with one after each text
