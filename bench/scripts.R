# The work of bench/scripts by data.table with one thread.
#
# usage: Rscript scripts.R start | print FILE | update FILE
suppressPackageStartupMessages({
    library(bit64)
    library(data.table)
})
setDTthreads(1)
words <- commandArgs(TRUE)
if (words[1] != "start") {
    rows <- fread(words[2], colClasses = c("integer", "integer", "integer64", "integer"))
    if (words[1] == "print") {
        fwrite(rows, "")
    } else {
        hits <- rows[x > 0, which = TRUE]
        rows[hits, y := as.integer64(x) * 3L + (hits - 1L) %% 7L]
        cat(as.character(sum(rows$y)), "\n", sep = "")
    }
}
