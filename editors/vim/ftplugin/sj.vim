" editors/make.py writes this file.
setlocal commentstring=//\ %s comments=://
