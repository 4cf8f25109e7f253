# The commands with their options, and what these take: what ./ehdl, its help and the completion of words know of them.
#
# It says what COMMANDS of crates/command_line/src/parse.rt, and the ranges of src/read.rt and src/values.rt there, say to the program; checks/help
# compares them. The completion is read by a shell that a person works in, so all names here begin with `_ehdl`.

_ehdl_commands='compile run sim ref report prepare demo'

# The options that a command requires, and those that it may have.
declare -gA _ehdl_required=(
    [compile]='object verilog'
    [run]='object capture verilog answer verdicts final'
    [sim]='clocks object capture verilog answer verdicts final'
    [ref]='object capture answer verdicts final'
    [report]='object'
    [prepare]='object output'
    [demo]='seed packets'
)
declare -gA _ehdl_optional=(
    [compile]='program hash-cap'
    [run]='maps program hash-cap ifindex'
    [sim]='events maps program hash-cap ifindex'
    [ref]='maps program hash-cap ifindex'
    [report]='program hash-cap'
    [prepare]='program hash-cap'
    [demo]=''
)

# The files that a command writes, in the order in which it writes them.
declare -gA _ehdl_written=(
    [compile]='verilog'
    [run]='verilog answer verdicts final'
    [sim]='answer verdicts final'
    [ref]='answer verdicts final'
    [report]=''
    [prepare]='output'
    [demo]=''
)

# The least and the greatest number of an option that takes one. All others take a file's name, but `program`, which takes a function's.
declare -gA _ehdl_range=(
    [hash-cap]='1 1024'
    [ifindex]='0 4294967295'
    [clocks]='0 500000000'
    [events]='0 4294967295'
    [seed]='0 4294967295'
    [packets]='0 100000'
)

# No two of the options that name files may have one value.
_ehdl_files='object output capture verilog answer verdicts final maps'
