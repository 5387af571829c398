" Vim syntax file for the scripts of caa, and for a journal behind a script.
if exists('b:current_syntax')
  finish
endif

" What fits no line below is shown as an error; so are words too many.
syn match caaError /\S\+/
syn match caaComment /^\s*#.*$/ contains=@Spell

" The words that follow the first word of each line. A star says that the last may stand several times.
let s:forms = {
      \ 'participant': ['Participant'], 'object': ['Object', 'Number'], 'graph': ['Graph'], 'action': ['Action'],
      \ 'play': ['Action', 'Participant*'], 'drill': ['Object', 'Count'], 'watch': ['Object'],
      \ 'exception': ['Exception'], 'cover': ['Exception', 'Exception'], 'end': [],
      \ 'use': ['Object*'], 'roles': ['Role*'], 'internal': ['Graph'], 'interface': ['Graph'], 'fault': ['Exception'],
      \ 'body': ['Role'], 'handler': ['Role', 'Exception'], 'nest': ['Nest', 'Action', 'Role*'],
      \ 'alternate': ['Nest', 'Action'], 'map': ['Nest', 'Exception', 'Exception'], 'mapundo': ['Nest', 'Exception'],
      \ 'mapfailure': ['Nest', 'Exception'], 'abort': ['Role', 'Exception'],
      \ 'read': ['Object'], 'put': ['Object', 'Number'], 'add': ['Object', 'Number'], 'work': ['Rounds'],
      \ 'check': ['Test', 'Number', 'Exception'], 'raise': ['Exception'], 'enter': ['Nest'],
      \ 'done': [], 'signal': ['Exception'], 'undo': [],
      \ }
let s:patterns = {'Number': '\(0\|-\?[1-9]\d*\)', 'Count': '[1-9]\d*', 'Rounds': '\(0\|[1-9]\d*\)', 'Test': '\(below\|above\|equal\)'}
let s:name = '\a[A-Za-z0-9_-]\{,31}'
let s:ends = '\ze\(\s\|$\)'

" Each word of a line has a group of its own, which leads to the next one.
for [s:word, s:kinds] in items(s:forms)
  exe 'syn match caaKeyword /^\s*\zs' . s:word . s:ends . '/ skipwhite nextgroup=caa_' . s:word . '_1'
  for s:at in range(len(s:kinds))
    let s:kind = substitute(s:kinds[s:at], '\*', '', '')
    let s:group = 'caa_' . s:word . '_' . (s:at + 1)
    let s:next = s:kind ==# s:kinds[s:at] ? 'caa_' . s:word . '_' . (s:at + 2) : s:group
    exe 'syn match ' . s:group . ' /' . get(s:patterns, s:kind, s:name) . s:ends . '/ contained skipwhite nextgroup=' . s:next
    exe 'hi def link ' . s:group . ' caa' . s:kind
  endfor
endfor

" The longer form of abort: role, test, number, exception.
exe 'syn match caa_abort_test /' . s:patterns.Test . '\ze\s\+-\?\d/ contained skipwhite nextgroup=caa_abort_number'
exe 'syn match caa_abort_number /' . s:patterns.Number . s:ends . '/ contained skipwhite nextgroup=caa_abort_2'
exe 'syn match caa_abort_1 /' . s:name . s:ends . '/ contained skipwhite nextgroup=caa_abort_test,caa_abort_2'
hi def link caa_abort_test caaTest
hi def link caa_abort_number caaNumber

" The text of a journal.
syn match caaJournal /^\s*journal\s*$/
syn match caaEntry /^\l\+\ze \d\+ \a/ skipwhite nextgroup=caaEntryPlace
syn match caaEntryPlace /\d\+/ contained skipwhite nextgroup=caaEntryBy
syn match caaEntryBy /\S\+/ contained skipwhite nextgroup=caaEntryNumber,caaEntryMore
syn match caaOutcome /^outcome\ze \d\+ \a/ skipwhite nextgroup=caaOutcomePlace
syn match caaOutcomePlace /\d\+/ contained skipwhite nextgroup=caaOutcomeAction
syn match caaOutcomeAction /\S\+/ contained skipwhite nextgroup=caaEntryMore
syn match caaSeen /^seen\ze \a\S* \d/ skipwhite nextgroup=caaSeenObject
syn match caaSeenObject /\S\+/ contained skipwhite nextgroup=caaEntryNumber
syn match caaEntryMore /\S\+/ contained skipwhite nextgroup=caaEntryNumber,caaEntryMore
exe 'syn match caaEntryNumber /' . s:patterns.Number . s:ends . '/ contained skipwhite nextgroup=caaEntryNumber,caaEntryMore'

hi def link caaComment Comment
hi def link caaError Error
hi def link caaKeyword Statement
hi def link caaParticipant Type
hi def link caaObject Identifier
hi def link caaGraph Structure
hi def link caaAction Function
hi def link caaRole Special
hi def link caaNest Label
hi def link caaException Exception
hi def link caaNumber Number
hi def link caaCount Number
hi def link caaRounds Number
hi def link caaTest Operator
hi def link caaJournal PreProc
hi def link caaEntry Statement
hi def link caaEntryPlace Number
hi def link caaEntryBy caaParticipant
hi def link caaEntryNumber Number
hi def link caaEntryMore Identifier
hi def link caaOutcome PreProc
hi def link caaOutcomePlace Number
hi def link caaOutcomeAction caaAction
hi def link caaSeen PreProc
hi def link caaSeenObject caaObject

let b:current_syntax = 'caa'
