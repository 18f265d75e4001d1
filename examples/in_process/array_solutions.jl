# Draws solutions of the formula on standard input by arrays in Julia's own process, and prints a line for each:
#
#     POPSAMPLE_LIBRARY=$PWD/crates/popsample_c/out/libpopsample.so \
#         julia examples/in_process/array_solutions.jl 5 < examples/chain.cnf

const LIBRARY = get(ENV, "POPSAMPLE_LIBRARY", "libpopsample.so.0")
const NO_LIMIT = typemax(UInt64)
const CLASH = 5

"Whether each variable is true in solutions, a column for each. A 0 ends each clause. Clauses may clash only by rounds."
function solutions(variables, literals, key; count = 1, by_rounds = false)
    numbers, none = Int32.(literals), UInt32[0]
    values, counts = Matrix{UInt8}(undef, variables, count), Matrix{UInt64}(undef, 2, count)
    kind, place = Ref{UInt64}(0), Ref{UInt64}(0)
    status = ccall((:popsample_assignments, LIBRARY), UInt32,
        (UInt32, Ptr{Int32}, Csize_t, UInt32, Ptr{UInt8}, Csize_t, UInt32, UInt32,
            Ptr{UInt32}, Csize_t, UInt64, Ptr{UInt8}, Csize_t, Ptr{UInt32}, Csize_t,
            Ptr{UInt64}, Csize_t, Ref{UInt64}, Ref{UInt64}),
        variables, numbers, length(numbers), by_rounds, key, length(key), 0x7fffffff, 0,
        none, 0, NO_LIMIT, values, length(values), none, 0, counts, length(counts), kind, place)
    status == CLASH && !by_rounds && return solutions(variables, literals, key; count, by_rounds = true)
    status == 0 || error("status $status, kind $(kind[]), place $(place[])")
    values .== 1
end

lines = split.(readlines())
variables = parse(Int, first(line for line in lines if !isempty(line) && line[1] == "p")[3])
clauses = [parse.(Int32, line) for line in lines if !isempty(line) && !(line[1] in ("c", "p"))]
key = hex2bytes("a7e8b266ea9514109c9a658bc61f21124fe41c0814138e4855d11a7599f94bc6")
values = solutions(variables, reduce(vcat, clauses; init = Int32[]), key; count = parse(Int, ARGS[1]))
for solution in eachcol(values)
    println("v ", join((value ? v : -v for (v, value) in enumerate(solution)), " "), " 0")
end
