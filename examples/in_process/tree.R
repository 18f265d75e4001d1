# Draws a spanning tree of a graph in R's own process, and prints its arrows. Of popsample_r.c in this folder comes first
#
#     PKG_CPPFLAGS=-I$PWD/c/include PKG_LIBS=$PWD/crates/popsample_c/out/libpopsample.a \
#         R CMD SHLIB --output=popsample_r.so examples/in_process/popsample_r.c
#     Rscript examples/in_process/tree.R examples/roads.col

dyn.load("popsample_r.so")

# What the program would print, by lines; what is no sample is an error.
popsample <- function(words, text) {
  answer <- .Call("popsample_r", words, text)
  if (attr(answer, "status") != 0) stop(answer)
  strsplit(answer, "\n")[[1]]
}

text <- paste0(paste(readLines(commandArgs(TRUE)[1]), collapse = "\n"), "\n")
key <- "a7e8b266ea9514109c9a658bc61f21124fe41c0814138e4855d11a7599f94bc6"
lines <- popsample(c("tree", "--key", key), text)
arrows <- read.table(text = grep("^a ", lines, value = TRUE), col.names = c("a", "tail", "head", "edge"))
cat(sprintf("%d -> %d\n", arrows$tail, arrows$head), sep = "")
