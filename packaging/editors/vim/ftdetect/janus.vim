autocmd BufRead,BufNewFile *.janus,*.janus-cells setfiletype janus
