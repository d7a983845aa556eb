" Colours of the reversible language Janus.
if exists('b:current_syntax')
  finish
endif
syntax keyword janusWord call delocal do else empty fi from if local loop main nil pop procedure push skip then top uncall until
syntax keyword janusKind int stack
syntax match janusNumber /\<[0-9]\+\>/
syntax match janusComment +//.*$+
syntax match janusCommand /^%.*$/
highlight default link janusWord Keyword
highlight default link janusKind Type
highlight default link janusNumber Number
highlight default link janusComment Comment
highlight default link janusCommand PreProc
setlocal commentstring=//\ %s
let b:current_syntax = 'janus'
