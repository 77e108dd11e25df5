" Files that end in .koat are programs of koat.
autocmd BufRead,BufNewFile *.koat setfiletype koat
