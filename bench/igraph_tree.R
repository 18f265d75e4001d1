# Random spanning trees by igraph in R, one if no number is given: Rscript igraph_tree.R SEED [TREES] < graph
suppressPackageStartupMessages(library(igraph))
words <- as.integer(commandArgs(trailingOnly = TRUE))
set.seed(words[1])
trees <- if (length(words) > 1) words[2] else 1
input <- file("stdin", "r")
header <- strsplit(readLines(input, 1), " ")[[1]]
text <- scan(input, what = list("", 0, 0), quiet = TRUE)
graph <- make_graph(rbind(text[[2]], text[[3]]), n = as.integer(header[3]), directed = FALSE)
for (number in seq_len(trees)) {
  tree <- ends(graph, sample_spanning_tree(graph, 1))
  writeLines(paste("a", tree[, 1], tree[, 2]))
}
