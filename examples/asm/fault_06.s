j nowhere               # no label has this name
