" Vim syntax file for figures of gclc. Made by contrib/syntax from the table of commands.
if exists("b:current_syntax")
  finish
endif
syntax case match
syntax iskeyword 33-36,38-122,124,126
syntax match gclNumber "\k\@1<![+-]\?\%(\d\+\.\?\d*\|\.\d\+\)\k\@!"
syntax match gclCommand "\<\%(dim\|color\|prooflevel\|prooflimit\|prover_timeout\|point\|line\|circle\|intersec\|intersec2\|midpoint\|med\|perp\|parallel\|foot\|online\|oncircle\|translate\|towards\|drawpoint\|drawsegment\|drawdashsegment\|drawline\|drawcircle\|cmark\|mark\|prove\|cmark_l\|cmark_r\|cmark_t\|cmark_b\|cmark_lt\|cmark_lb\|cmark_rt\|cmark_rb\|mark_l\|mark_r\|mark_t\|mark_b\|mark_lt\|mark_lb\|mark_rt\|mark_rb\)\>"
syntax region gclBraces matchgroup=gclBrace start="{" end="}" contains=gclStatement,gclNumber,gclComment,gclBraces
syntax match gclStatement "\<\%(identical\|collinear\|perpendicular\|parallel\|midpoint\|same_length\)\>" contained
syntax match gclComment "%.*$"
highlight default link gclCommand Keyword
highlight default link gclStatement Function
highlight default link gclBrace Delimiter
highlight default link gclNumber Number
highlight default link gclComment Comment
setlocal commentstring=%\ %s
let b:current_syntax = "gcl"
