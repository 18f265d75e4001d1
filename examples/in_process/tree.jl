# Draws a spanning tree of a graph in Julia's own process, and prints its arrows:
#
#     POPSAMPLE_LIBRARY=$PWD/crates/popsample_c/out/libpopsample.so julia examples/in_process/tree.jl examples/roads.col

const LIBRARY = get(ENV, "POPSAMPLE_LIBRARY", "libpopsample.so.0")
const NO_ROOM = 12

"The status, and what the program would print. A byte 0 ends each word."
function popsample(words, text, room = 65536)
    line = Vector{UInt8}(join(word * "\0" for word in words))
    output, written = Vector{UInt8}(undef, room), Ref{Csize_t}(0)
    status = ccall((:popsample_run, LIBRARY), UInt32,
        (Ptr{UInt8}, Csize_t, Ptr{UInt8}, Csize_t, Ptr{UInt8}, Csize_t, Ref{Csize_t}),
        line, length(line), text, length(text), output, room, written)
    status == NO_ROOM ? popsample(words, text, written[]) : (status, String(output[1:written[]]))
end

key = "a7e8b266ea9514109c9a658bc61f21124fe41c0814138e4855d11a7599f94bc6"
status, answer = popsample(["tree", "--key", key], read(ARGS[1]))
status == 0 || error(answer)
for line in split(answer, "\n")
    if startswith(line, "a ")
        _, tail, head, _ = split(line)
        println(tail, " -> ", head)
    end
end
