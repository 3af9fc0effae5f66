nop; nop                # two statements on a line
here: there: nop        # two labels and a statement
far:                    # a label alone names what comes next
    j here; j far
