# Draws a spanning tree of a graph by arrays in Julia's own process, and prints its arrows:
#
#     POPSAMPLE_LIBRARY=$PWD/crates/popsample_c/out/libpopsample.so julia examples/in_process/array_tree.jl examples/roads.col

const LIBRARY = get(ENV, "POPSAMPLE_LIBRARY", "libpopsample.so.0")
const NO_LIMIT = typemax(UInt64)

"Parents of spanning trees, a column for each: vertices and edges count from 1, and the root's parent is 0."
function spanning_trees(vertices, ends, weights, root, key; count = 1)
    numbers, none = UInt32.(vec(ends) .- 1), UInt32[0]
    parents, counts = Matrix{UInt32}(undef, vertices, count), Matrix{UInt64}(undef, 2, count)
    kind, place = Ref{UInt64}(0), Ref{UInt64}(0)
    status = ccall((:popsample_trees, LIBRARY), UInt32,
        (UInt32, Ptr{UInt32}, Csize_t, Ptr{UInt32}, Csize_t, UInt32, Ptr{UInt8}, Csize_t, UInt32, UInt32,
            Ptr{UInt32}, Csize_t, UInt64, Ptr{UInt32}, Csize_t, Ptr{UInt32}, Csize_t, Ptr{UInt32}, Csize_t,
            Ptr{UInt64}, Csize_t, Ref{UInt64}, Ref{UInt64}),
        vertices, numbers, length(numbers), weights, length(weights), root - 1, key, length(key), 4096, 0,
        none, 0, NO_LIMIT, parents, length(parents), none, 0, none, 0, counts, length(counts), kind, place)
    status == 0 || error("status $status, kind $(kind[]), place $(place[])")
    parents .+ UInt32(1)
end

lines = split.(readlines(ARGS[1]))
edges = reduce(hcat, [parse.(UInt32, line[2:4]) for line in lines if line[1] == "e"])
vertices = parse(Int, first(line for line in lines if line[1] == "p")[3])
key = hex2bytes("a7e8b266ea9514109c9a658bc61f21124fe41c0814138e4855d11a7599f94bc6")
parents = spanning_trees(vertices, edges[1:2, :], edges[3, :], 1, key)
for v in 2:vertices
    println(v, " -> ", parents[v, 1])
end
