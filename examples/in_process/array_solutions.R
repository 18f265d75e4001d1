# Draws solutions of the formula on standard input by vectors in R's own process, and prints a line for each. First make
# popsample_solutions_r.so:
#
#     PKG_CPPFLAGS=-I$PWD/c/include PKG_LIBS=$PWD/crates/popsample_c/out/libpopsample.a \
#         R CMD SHLIB --output=popsample_solutions_r.so examples/in_process/popsample_solutions_r.c
#     Rscript examples/in_process/array_solutions.R 5 < examples/chain.cnf

dyn.load("popsample_solutions_r.so")

# The values of the variables in solutions, a column for each. A 0 ends each clause in `literals`.
solutions <- function(variables, literals, key, count = 1L)
  .Call("popsample_solutions_r", variables, literals, key, count)

lines <- readLines(file("stdin"))
variables <- as.integer(strsplit(grep("^p", lines, value = TRUE), " +")[[1]][3])
literals <- scan(text = grep("^[cp]", lines, value = TRUE, invert = TRUE), what = 0L, quiet = TRUE)
digits <- "a7e8b266ea9514109c9a658bc61f21124fe41c0814138e4855d11a7599f94bc6"
key <- as.raw(strtoi(substring(digits, seq(1, 63, 2), seq(2, 64, 2)), 16L))
values <- solutions(variables, literals, key, as.integer(commandArgs(TRUE)[1]))
signed <- ifelse(values, seq_len(variables), -seq_len(variables))
cat(apply(signed, 2, function(column) paste("v", paste(column, collapse = " "), "0\n")), sep = "")
