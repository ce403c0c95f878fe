" Scripts of rproc end in .script, and transcripts in .transcript.
autocmd BufNewFile,BufRead *.script setfiletype rproc-script
autocmd BufNewFile,BufRead *.transcript setfiletype rproc-transcript
