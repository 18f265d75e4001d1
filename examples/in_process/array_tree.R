# Draws a spanning tree of a graph by vectors in R's own process, and prints its arrows. First make popsample_trees_r.so:
#
#     PKG_CPPFLAGS=-I$PWD/c/include PKG_LIBS=$PWD/crates/popsample_c/out/libpopsample.a \
#         R CMD SHLIB --output=popsample_trees_r.so examples/in_process/popsample_trees_r.c
#     Rscript examples/in_process/array_tree.R examples/roads.col

dyn.load("popsample_trees_r.so")

# The parents of spanning trees with arrows towards the root, a column for each tree.
spanning_trees <- function(vertices, edges, weights, root, key, count = 1L)
  .Call("popsample_trees_r", vertices, as.integer(t(edges)), weights, root, key, count)

words <- strsplit(readLines(commandArgs(TRUE)[1]), " +")
edges <- t(sapply(Filter(function(line) line[1] == "e", words), function(line) as.integer(line[2:4])))
vertices <- as.integer(Filter(function(line) line[1] == "p", words)[[1]][3])
digits <- "a7e8b266ea9514109c9a658bc61f21124fe41c0814138e4855d11a7599f94bc6"
key <- as.raw(strtoi(substring(digits, seq(1, 63, 2), seq(2, 64, 2)), 16L))
parents <- spanning_trees(vertices, edges[, 1:2], edges[, 3], 1L, key)
cat(sprintf("%d -> %d\n", 2:vertices, parents[-1, 1]), sep = "")
