#!/usr/bin/env python3
"""Respells the specifications' own outcome to std's: Out R A becomes Result A R, ok Ok, refuse Err, in .antt files, clauses of .rt files and must-fail edits; imports come from std's Prelude.

usage: python3 tools/to_result.py TOP

Once, committed, and only after refusal/specs/Reading.antt has, in place of the data type `Out`,
    pub use Rattle.std.specs.Prelude.{Ok as ok, Err as refuse}
    abbrev pub Out : (R A : Type 0) → Type 0
    Out R A = Result A R
with `Result` in its import of the Prelude, and all proves. Then `rt fmt` in each crate. It has run on this tree.
"""
import re, sys, os, glob
if len(sys.argv) != 2 or not os.path.isdir(os.path.join(sys.argv[1], "crates")):
    print(__doc__)
    raise SystemExit(2)
top = sys.argv[1]
if "Ok as ok, Err as refuse" not in open(os.path.join(top, "crates/refusal/specs/Reading.antt"), encoding="utf-8").read():
    print("to_result: refusal/specs/Reading.antt has no aliases yet, or this has run already")
    raise SystemExit(2)
W=r"(?<![\w\-'.«₀-₉])"; E=r"(?![\w\-'»])"
def atom(s,i):
    while i<len(s) and s[i] in ' ': i+=1
    j=i
    if s[i] in '({':
        d=0
        while True:
            if s[j] in '({': d+=1
            if s[j] in ')}': d-=1
            j+=1
            if d==0: break
    else:
        while j<len(s) and s[j] not in ' \n(){};,': j+=1
    return i,j
cnt=dict(Out=0,ok=0,refuse=0,files=0)
def body(s):
    # comments stay
    out=[]
    for part in re.split(r'(--[^\n]*|//[^\n]*)',s):
        if part.startswith('--') or part.startswith('//'): out.append(part); continue
        while True:
            m=re.search(W+r'Out(?= )',part)
            if not m: break
            a=atom(part,m.end()); b=atom(part,a[1])
            if b[0]==b[1]: print('?',part[m.start():m.start()+60]); part=part[:m.start()]+'OUT!'+part[m.end():]; continue
            part=part[:m.start()]+'Result '+part[b[0]:b[1]]+' '+part[a[0]:a[1]]+part[b[1]:]; cnt['Out']+=1
        part,n=re.subn(W+'ok'+E,'Ok',part); cnt['ok']+=n
        part,n=re.subn(W+'refuse'+E,'Err',part); cnt['refuse']+=n
        out.append(part)
    return ''.join(out)
NEW={'Out':'Result','ok':'Ok','refuse':'Err'}
imp=re.compile(r'((?:ghost )?use Rattle\.refusal\.specs\.Reading\.\{)([^}]*)(\};?)')
for p in sorted(glob.glob(top+'/crates/*/specs/**/*.antt',recursive=True)+glob.glob(top+'/crates/*/proofs/**/*.antt',recursive=True)+glob.glob(top+'/crates/*/src/*.rt')+glob.glob(top+'/crates/*/must-fail/*.edit')):
    s=open(p).read(); o=s
    if p.endswith('refusal/specs/Reading.antt'):
        s=s.replace("List, Result}\npub use Rattle.std.specs.Prelude.{Ok as ok, Err as refuse}\n","List, Result, Ok, Err}\n").replace("abbrev pub Out : (R A : Type 0) → Type 0\nOut R A = Result A R\n","")
        s=body(s)
    elif p.endswith('.edit'):
        f=re.search(r'^file: (.*)$',s,re.M).group(1)
        if f.endswith('.antt'):
            s=re.sub(r'^(old:|new:)(.*)$',lambda m:m.group(1)+body(m.group(2)),s,flags=re.M)
    else:
        m=imp.search(s)
        if m:
            names=[x.strip() for x in m.group(2).split(',')]
            take=[x for x in names if x in NEW]; rest=[x for x in names if x not in NEW]
            if take:
                i,j=m.span()
                head,tail=s[:i],s[j:]
                new=', '.join(NEW[x] for x in take)
                mine=(m.group(1)+', '.join(rest)+m.group(3)+'\n') if rest else ''
                line=m.group(1).split('Rattle')[0]+'Rattle.std.specs.Prelude.{'+new+m.group(3)
                # join with an import of Prelude that stands already
                pre=re.search(r'((?:ghost )?use Rattle\.std\.specs\.Prelude\.\{)([^}]*)(\})',head+tail)
                if pre:
                    ht=head+mine.rstrip('\n')+tail if mine else head.rstrip('\n')+tail
                    have=re.search(r'((?:ghost )?use Rattle\.std\.specs\.Prelude\.\{)([^}]*)(\})',ht)
                    old=[x.strip() for x in have.group(2).split(',')]
                    add=[x for x in new.split(', ') if x not in old]
                    s=ht[:have.end(2)]+''.join(', '+x for x in add)+ht[have.end(2):]
                else:
                    s=head+line+('\n'+mine.rstrip('\n') if mine else '')+tail
                # body outside of the imports
                if p.endswith('.antt'):
                    s=''.join(x if x.startswith('use ') or x.startswith('pub use ') else body(x) for x in re.split(r'((?:^use [^\n]*\n)|(?:^pub use [^\n]*\n))',s,flags=re.M))
                else:
                    s=re.sub(r'(?<=≡ )(file_answer_by \()ok\b',r'\1Ok',s)
    if s!=o:
        cnt['files']+=1
        open(p,'w').write(s)
print(cnt)
