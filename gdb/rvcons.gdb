# Commands for GDB at `rvcons gdb`: gdb-multiarch -x rvcons.gdb prog.elf ..
# GDB keeps what it has read, so it is told when a command of the server has moved.

define goto
  if $argc != 1
    echo goto K: to the position after K choices\n
  else
    monitor goto $arg0
    maint flush register-cache
    maint flush dcache
    frame
  end
end
document goto
goto K: to the position after K choices of the schedule.
end

define where-is
  monitor where
end
document where-is
where-is: the position, and the hart whose choice is next.
end
