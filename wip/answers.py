#!/usr/bin/env python3
"""Turns the proofs of a crate from the older form, proofs/**/Proof.antt, to Invariants.antt and Answers.antt.

usage: in the folder of a crate whose sources today's check reads, and whose lower crates prove:
    rt check --generated NAMES --old-names
    python3 answers.py . NAMES/names.json
    rt fmt; rt check
What it cannot place it prints; a few goals are then left by hand.
"""
import json,os,re,sys,glob
crate,names=sys.argv[1],json.load(open(sys.argv[2]))
only=sys.argv[3:] 
cname=os.path.basename(os.path.abspath(crate))
IDENT=r"[^\W\d][\w'-]*"
def norm(s): return s.replace('-','_').replace('′',"'")
# functions' params and clause names, over all crates' sources
root=os.path.dirname(os.path.abspath(crate))
def split_top(s):
    out=[];d=0;cur=''
    for ch in s:
        if ch in '([{<': d+=1
        if ch in ')]}>': d-=1
        if ch==',' and d==0: out.append(cur);cur=''
        else: cur+=ch
    if cur.strip(): out.append(cur)
    return out
sig={}
for f in glob.glob(root+'/*/src/**/*.rt',recursive=True):
    c=f[len(root)+1:].split('/')[0]
    t=re.sub(r'//.*','',open(f,encoding='utf-8').read())
    impl=None
    for m in re.finditer(r'(?m)^\s*(?:pub(?:\([a-z]+\))? )?(?:const )?(?:extern "C" )?fn (\w+)(?:<[^>]*>)?\(((?:[^()]|\([^()]*\))*)\)([^{;]*)',t):
        ps=[p.split(':')[0].replace('mut ','').strip() for p in split_top(m.group(2))]
        ps=['self' if p in('self','&self','&mut self','&','mut self') or p.endswith('self') else p for p in ps]
        # clauses follow
        rest=t[m.end(2)+1:m.end(2)+4000]
        ens=[];req=[]
        for k in re.finditer(r'\s*(ensures|requires)\s*(\w+)?\s*\{',rest):
            pass
        pos=0
        head=re.match(r'[^{;]*?(?=\b(?:ensures|requires|ghost)\b|\{|;)',rest,re.S)
        pos=head.end() if head else 0
        while True:
            k=re.match(r'\s*(ensures|requires|ghost)\s*(\w+)?\s*(?::\s*)?\{',rest[pos:])
            if not k: break
            d=1;i=pos+k.end()
            while d and i<len(rest):
                if rest[i]=='{':d+=1
                if rest[i]=='}':d-=1
                i+=1
            (ens if k.group(1)=='ensures' else req).append(k.group(2))
            pos=i
        sig.setdefault(m.group(1),[]).append((c,ps,req,ens))
def find_sig(callee):
    parts=callee.split('::'); fn=parts[-1]
    cands=[x for x in sig.get(fn,[]) if x[0]==parts[0]] or sig.get(fn,[])
    return cands[0] if cands else None
def tokens_of(text): return text
def decode(path,n):
    """path like '.1.1.0' -> (index, rest) in a right-nested tuple of n+? """
    idx=0;p=path
    while True:
        m=re.match(r'\.(\d+)',p)
        if not m: return idx,p,False
        k=int(m.group(1))
        if k==0: return idx,p[m.end():],True
        if k==1: idx+=1; p=p[m.end():]
        else: return None,path,False

def clause(path,cl):
    idx,r,ok=0,path,False
    while idx<len(cl)-1:
        m=re.match(r'\.([01])(?=\.|$)',r)
        if not m: break
        r=r[m.end():]
        if m.group(1)=='0': ok=True; break
        idx+=1
    return '.'+cl[idx]+r
def tuple_parts(s):
    s=s.strip()
    if not s.startswith('('): return None
    d=0;parts=[];cur='';i=0
    for i,ch in enumerate(s):
        if ch in '([{': d+=1
        if ch in ')]}': d-=1
        if d==0 and ch==')':
            parts.append(cur); 
            return parts if i==len(s)-1 and len(parts)>1 else None
        if d==1 and ch==',' : parts.append(cur); cur=''; continue
        if not(d==1 and ch=='(' and i==0): cur+=ch
    return None
def torecord(b,ens):
    r=torecord1(b,ens)
    if r!=b or 'record {' in b or '↦' in b: return r
    # the last expression is not a tuple: project it
    d=0;last=0;ts=list(re.finditer(r"[([{]|[)\]}]|(?<![\w'.-])in(?=\s)",b))
    for x in ts:
        y=x.group(0)
        if y in '([{': d+=1
        elif y in ')]}': d-=1
        elif d==0: last=x.end()
    head,e=b[:last],b[last:].strip()
    if re.match(r"(search|omega|cc|grind|rw|subst|elim|λ|record)\b",e) or not e: return b
    def proj(k):
        return 'both'+'.1'*k+('.0' if k<len(ens)-1 else '')
    return head+' let both = '+e+' in record {'+'; '.join(' %s = %s'%(n,proj(k)) for k,n in enumerate(ens))+' }'
def torecord1(b,ens):
    # the last expression: the last top-level tuple that ends the body
    s=b.rstrip()
    if not s.endswith(')'): return b
    d=0
    for i in range(len(s)-1,-1,-1):
        if s[i] in ')]}': d+=1
        if s[i] in '([{': d-=1
        if d==0: break
    head,tail=s[:i],s[i:]
    if head.strip() and not re.search(r"(\bin|=)\s*$",head): return b
    parts=tuple_parts(tail)
    if not parts: return b
    parts=[x for x in parts if x.strip()]
    while len(parts)<len(ens):
        sub=tuple_parts(parts[-1])
        if not sub: return b
        parts=parts[:-1]+[x for x in sub if x.strip()]
    if len(parts)!=len(ens): return b
    return head+'record {'+'; '.join(' %s = %s'%(n,x.strip()) for n,x in zip(ens,parts))+' }'
def parse_decls(text):
    """top-level declarations: (name, sigtext, unfolding, body, raw)"""
    lines=text.split('\n')
    i=0;items=[];com=[]
    while i<len(lines):
        l=lines[i]
        if not l.strip(): i+=1; com.append(('blank',l)); continue
        j=i+1
        while j<len(lines) and (lines[j].startswith(' ') or lines[j].startswith(')') or lines[j].startswith('}') or lines[j].startswith(']')): j+=1
        items.append('\n'.join(lines[i:j])); i=j
    return items
def strip_indent(b): return b
def convert(path):
    text=open(path,encoding='utf-8').read()
    folder=os.path.dirname(path)
    rel=os.path.relpath(folder,os.path.join(crate,'proofs'))
    mod=rel.replace('/','.')
    cyc='/+' in '/'+rel
    if cyc:
        fn=rel.split('/+')[-1] if '/+' in rel else rel.lstrip('+')
        pre='.'.join(rel.split('/')[:-1])
        keys=[k for k in names if k.startswith('Rattle-%s-proofs.%s+%s.Lts'%(cname,pre+'.' if pre else '',fn))]
    else: keys=['Rattle-%s-proofs.%s.Lts'%(cname,mod)]
    if not keys or keys[0] not in names:
        print('NO NAMES',path,keys); return
    if len(keys)>1: print('MANY',path,keys)
    E=names[keys[0]]
    if cyc and re.search(r"(?m)^module _ \(t : ℕ\) where$",text):
        ls=text.split('\n'); out=[];inm=False
        for l in ls:
            if re.match(r"module _ \(t : ℕ\) where$",l): inm=True; continue
            if inm and l.strip() and not l.startswith(' '): inm=False
            out.append(l[2:] if inm and l.startswith('  ') else l)
        text='\n'.join(out)
    sections=[];secmembers=[]
    if not cyc or True:
        ls=text.split('\n'); out=[];k=0
        while k<len(ls):
            if ls[k].startswith('module _'):
                j=k+1
                while j<len(ls) and (not ls[j].strip() or ls[j].startswith(' ')): j+=1
                while not ls[j-1].strip(): j-=1
                com=[]
                while out and out[-1].startswith('--'): com.insert(0,out.pop())
                sections.append('\n'.join(com+ls[k:j])); k=j
            else: out.append(ls[k]); k+=1
        text2='\n'.join(out)
    else: text2=text
    items=parse_decls(text2)
    needs=E['needs']; asked=E['asked_at']
    placeparent={p[0]:p[1] for p in E['places']}
    placestep={p[0]:(p[2],p[3]) for p in E['places']}
    newplace={p[0]:n for p,n in zip(E['places'],E['places_by_name'])}
    def chain(pl):
        steps={};cal={}
        while pl is not None and pl in placestep:
            (o,n),callee=placestep[pl]
            if o and o not in steps: steps[o]=n; cal[o]=callee
            pl=placeparent[pl]
        return steps,cal
    allsteps={};allcal={}
    for p in E['places']:
        (o,n)=p[2]
        if o: allsteps.setdefault(o,n); allcal.setdefault(o,p[3])
    bynorm={norm(o):o for o in allsteps}
    shift=set()
    jmax={}
    for o in allsteps:
        m=re.match(r'(.*?)(\d*)$',norm(o)); jmax[m.group(1)]=max(jmax.get(m.group(1),0),int(m.group(2) or 1))
    umax={}
    for m in re.finditer(r"\.("+IDENT+r")",text):
        mm=re.match(r'(.*?)(\d*)$',norm(m.group(1)))
        umax[mm.group(1)]=max(umax.get(mm.group(1),0),int(mm.group(2) or 1))
    for b_,n_ in umax.items():
        if b_ in jmax and n_==jmax[b_]+1 and n_>=2: shift.add(b_)
    if shift: print('SHIFT',path,shift)
    placearm={p[0]:a for p,a in zip(E['places'],E['arms'])}
    placetyped={p[0]:a for p,a in zip(E['places'],E['typed'])}
    def chainof(pl):
        out=[]
        while pl is not None and pl in placestep: out.append(pl); pl=placeparent[pl]
        return out
    def armmap(place):
        mp={}
        for pl in (chainof(place) if place else list(placestep)):
            a=placearm.get(pl)
            if not a: continue
            for f,st,path in a[2]:
                if path: mp.setdefault((st,tuple(path)),a[0]+'.'+f)
        return mp
    def arms_fix(body,place):
        mp=armmap(place)
        # aliases of c.step.given
        for mm in list(re.finditer(r"let ([\w'-]+) = c\.([\w'-]+)((?:\.[\w'-]+)*) in[ \n]+",body)):
            v,st,rest=mm.groups()
            if any(norm(s)==norm(st) for s,_ in mp) and ('.given' in rest):
                body=body.replace(mm.group(0),'',1)
                body=re.sub(rf"(?<![\w'.-]){v}(?=\.|\b(?![\w'-]))",f"c.{st}{rest}",body)
        for (st,path),new in sorted(mp.items(),key=lambda x:-len(x[0][1])):
            pat=r"(?<![\w'.-])c\."+'[-_]'.join(re.escape(x) for x in re.split('[-_]',st))+''.join(r'\.'+x for x in path)+r"(?![\w'-])"
            body=re.sub(pat,'c.'+new,body)
        if place:
            for v,st in placetyped.get(place) or []:
                pat=r"(?<![\w'.-])c\."+'[-_]'.join(re.escape(x) for x in re.split('[-_]',st))+r"\.given(?![\w'-])"
                body=re.sub(pat,'c.type_inv.'+v,body)
        for o,n in E['args']:
            body=body.replace(o.replace(' ',''),n.replace(' ',''))
            mo=re.match(r"\.args \.(\w+)$",o); mn=re.match(r"\.args \.(\w+)$",n)
            if mo and mn:
                for v in re.findall(r"let ([\w'-]+) = c\.args in",body):
                    body=re.sub(rf"(?<![\w'.-]){v}\.{mo.group(1)}(?![\w'-])",f"{v}.{mn.group(1)}",body)
        return body
    def fix(body,place=None):
        steps,cal=(chain(place) if place else (allsteps,allcal))
        nn={norm(o):o for o in allsteps}
        nn.update({norm(o):o for o in steps})
        def step_new(o): return steps.get(o,allsteps.get(o))
        body=re.sub(r"(?:\.before)+(?=[\s,;)}.]|$)",'',body)
        # let d = c in  -> substitute
        for _ in range(8):
            mm=re.search(r"let ([\w'-]+) = c in\s*",body)
            if not mm: break
            v=mm.group(1)
            body=body.replace(mm.group(0),'',1)
            body=re.sub(rf"(?<![\w'.-]){v}\.",'c.',body)
            body=re.sub(rf"(?<=[ (]){v}(?=[\s,;)]|$)",'c',body)
        body=arms_fix(body,place)
        body=re.sub(r"not-(?:true|false) (?:_|[^\s()]+|\([^()]*\)) (c\.[\w'.-]+)",r"\1",body)
        body=re.sub(r"sym \(length-map [^\s()]+ _\) ∙ (?=c\.well_formed)",'',body)
        if cyc: body=re.sub(r"c\.requires\.1(?![\w])",'c.requires',body)
        def rep(m):
            head,st,rest=m.group(1),m.group(2),m.group(3)
            mm_=re.match(r'(.*?)(\d*)$',norm(st))
            if mm_.group(1) in shift and mm_.group(2):
                k_=int(mm_.group(2))-1; st=mm_.group(1)+('' if k_<2 else str(k_))
            o=nn.get(norm(st))
            if o is None and st.endswith('_lem'): st=st[:-4]; o=nn.get(norm(st))
            if o is None and re.search(r'\d$',st) and norm(re.sub(r'\d+$','',st)) in nn: st=re.sub(r'\d+$','',st); o=nn.get(norm(st))
            if o is None and norm(st)+'2' in nn: o=nn.get(norm(st)+'2')
            if o is None: return m.group(0)
            n=step_new(o); callee=cal.get(o) or allcal.get(o)
            if callee:
                s=find_sig(callee)
                params=E['params'].get(callee) or (s[1] if s else None)
                k=re.match(r'\.(new|auto)((?:\.\d+)+)(.*)',rest)
                if k and params:
                    idx,r,ok=decode(k.group(2),len(params))
                    if ok and idx<len(params): rest='.'+k.group(1)+'.'+params[idx]+r+k.group(3)
                    elif not ok and idx==len(params)-1: rest='.'+k.group(1)+'.'+params[idx]+r+k.group(3)
                k=re.match(r'\.(ensures|requires)((?:\.\d+)+)(.*)',rest)
                if k and s:
                    cl=s[3] if k.group(1)=='ensures' else s[2]
                    if len(cl)>1 and all(cl):
                        rest='.'+k.group(1)+clause(k.group(2),cl)+k.group(3)
            return head+'.'+n+rest
        body=re.sub(r"(?<![\w'.-])(c)\.("+IDENT+r")((?:\.[\w'-]+)*)",rep,body)
        for mm in re.finditer(r"let ([\w'-]+) = c\.([\w'-]+)\.ensures in",body):
            v,stn=mm.group(1),mm.group(2)
            os_=[o for o,n in list(steps.items())+list(allsteps.items()) if n==stn]
            callee=(cal.get(os_[0]) or allcal.get(os_[0])) if os_ else None
            s=find_sig(callee) if callee else None
            if s and len(s[3])>1 and all(s[3]):
                body=re.sub(rf"(?<![\w'.-]){v}((?:\.[01])+)(?![\w'-])",lambda m:v+clause(m.group(1),s[3]),body)
        # aliases: let x = c.step in ... x.new.0
        for mm in re.finditer(r"let ([\w'-]+) = c\.([\w'-]+) in",body):
            v,stn=mm.group(1),mm.group(2)
            os_=[o for o,n in list(steps.items())+list(allsteps.items()) if n==stn]
            if not os_: continue
            callee=cal.get(os_[0]) or allcal.get(os_[0])
            if not callee: continue
            s=find_sig(callee); params=E['params'].get(callee) or (s[1] if s else None)
            def rp(m):
                rest=m.group(1)
                k=re.match(r'\.(new|auto)((?:\.\d+)+)(.*)',rest)
                if k and params:
                    idx,r,ok=decode(k.group(2),len(params))
                    if idx is not None and idx<len(params): rest='.'+k.group(1)+'.'+params[idx]+r+k.group(3)
                k=re.match(r'\.(ensures|requires)((?:\.\d+)+)(.*)',rest)
                if k and s:
                    cl=s[3] if k.group(1)=='ensures' else s[2]
                    if len(cl)>1 and all(cl):
                        rest='.'+k.group(1)+clause(k.group(2),cl)+k.group(3)
                return v+rest
            body=re.sub(rf"(?<![\w'.-]){v}((?:\.[\w'-]+)+)",rp,body)
        return body
    # own ensures/requires of the function: clause names
    uses=[];inv=[];ans=[];helpers=[];comment=[];called={}
    specargs=None
    flat=[]
    for it in items:
        if it.startswith('module _'):
            # dedent the section
            ls=it.split('\n'); hd=ls[0]
            sub='\n'.join(l[2:] if l.startswith('  ') else l for l in ls[1:])
            flat.append(('module',hd))
            for x in parse_decls(sub): flat.append(('in',x))
            flat.append(('end',''))
        else: flat.append(('top',it))
    # merge unfolding lines and signature/bodies: group by name
    groups=[]  # dict(name,sig,unf,bodies)
    pend=[]
    for kind,it in flat:
        if kind in('module','end'): continue
        l=it.lstrip()
        if l.startswith('--'):
            pend.append(it); continue
        if l.startswith('use '): uses.append(it); 
        elif re.match(r'unfolding ',l): groups[-1]['unf'].append(it)
        else:
            m=re.match(r"((?:pub |abbrev |unfoldable |record |data )*)([^\s:({]+)\s*(?:\([^)]*\)\s*|\{[^}]*\}\s*)*:\s",l)
            m2=re.match(r"([^\s:({]+)(.*?)=",l,re.S)
            if m and not (m2 and groups and m2.group(1)==groups[-1]['name']):
                groups.append(dict(name=m.group(2),pre=m.group(1),sig=it,unf=[],bodies=[],com=pend)); pend=[]
            elif groups:
                groups[-1]['bodies'].append(it)
            else: print('??',path,it[:80])
        if l.startswith('use ') and pend: comment+=pend; pend=[]
    comment+= [] 
    # need names
    needold={norm(o):i for i,(o,n) in enumerate(needs)}
    needbynew={norm(n):i for i,(o,n) in enumerate(needs)}
    out_ans=[];out_inv=[];out_help=[]
    loops=E['loops']; changed=E['changed']
    spec=[g for g in groups if g['name'].endswith('spec')]
    argmap={}
    if spec:
        body='\n'.join(spec[-1]['bodies'])
        m=re.search(r'(?:tie|lts)\.spec\b(.*)$',body,re.S)
        if m:
            s=m.group(1)
            # split args
            args=[];i=0
            while i<len(s):
                ch=s[i]
                if ch.isspace(): i+=1; continue
                if ch==')': break
                if ch=='(':
                    d=0;j=i
                    while True:
                        if s[j]=='(':d+=1
                        if s[j]==')':d-=1
                        j+=1
                        if d==0: break
                    args.append(s[i:j]); i=j
                else:
                    j=i
                    while j<len(s) and not s[j].isspace() and s[j] not in '()': j+=1
                    args.append(s[i:j]); i=j
            if cyc: args=args[3:]

            drop=[a for a in args if re.match(r"\(?(invariant|decreases)",a)]
            rest=[a for a in args if a not in drop]
            if len(rest)==len(needs):
                for i,a in enumerate(rest): argmap[i]=a
            else: print('COUNT',path,len(rest),len(needs))
    used=set()
    t=' t' if cyc else ''
    for i,a in argmap.items():
        if a.startswith('(λ'):
            m=re.match(r"\(λ ([^.]*)\.\s*(.*)\)$",a,re.S)
            if not m: continue
            b=m.group(2)
            xs=[x for x in m.group(1).split()[1:] if x!='κs']
            if xs: b='λ '+' '.join(xs)+'. '+b
            if re.fullmatch(r"\s*(omega arith|search rules|cc|refl|absurd \(omega arith\))\s*",b): continue
            b=fix(b,asked[i][0])
            out_ans.append((i,needs[i][1],spec[-1]['unf'],b,[]))
    for g in groups:
        if g in spec: continue
        sg=g['sig']
        body='\n'.join(g['bodies'])
        m=re.search(r'(?:tie|lts)\.(Need-[^\s]+)',sg)
        mi=re.search(r'tie\.((?:invariant|decreases)-[^\s]+)',sg)
        if m and re.match(r"(?:pub |abbrev )*[^\s:]+\s*:\s*(?:tie|lts)\.Need-",sg.strip()):
            o=m.group(1)[5:]
            i=None
            nm=g['name']
            for k,a in argmap.items():
                if a==nm or a=='(%s t)'%nm or a=='(%s)'%nm: i=k
            if i is None: i=needold.get(norm(o),needbynew.get(norm(o)))
            if i is None:
                print('NEED?',path,o); out_help.append(sg+'\n'+body); continue
            bodies=g['bodies']
            m3=re.match(r"\s*[^\s]+\s+(.*?)\s*=\s*?(.*)$",bodies[0],re.S)
            b=m3.group(2)
            if m3.group(1).split()[:1]!=['c']: 
                b='{-ARGS %s-}'%m3.group(1)+b
            if re.fullmatch(r"\s*(omega arith|search rules)\s*",b): continue
            xs=[x for x in m3.group(1).split()[1:] if x!='κs']
            if xs: b='λ '+' '.join(xs)+'. '+b.strip()
            b=fix(b,asked[i][0])
            out_ans.append((i,needs[i][1],g['unf'],b,g['com']))
        elif mi:
            kind='invariant' if mi.group(1).startswith('inv') else 'decreases'
            lname=mi.group(1).split('-',1)[1]
            li=None
            for k,((o,n),vs) in enumerate(loops):
                if norm(o)==norm(lname) or norm(n)==norm(lname): li=k
            if li is None: li=0; print('LOOP?',path,lname)
            (o,n),vs=loops[li]; ch=changed[li]
            m3=re.match(r"\s*[^\s]+\s+(.*?)\s*=\s*(.*)$",g['bodies'][0],re.S)
            params=m3.group(1).split(); b=m3.group(2)
            want=len(vs)+sum(ch)
            sub={}
            if len(params)!=want: print('PARAMS?',path,params,vs,ch)
            for k,(v,c_) in enumerate(zip(vs,ch)):
                if k<len(params) and params[k]!='_': sub[params[k]]=('l.initial.'+v) if c_ else 'l.'+v
            k=len(vs)
            for v,c_ in zip(vs,ch):
                if c_ and k<len(params):
                    if params[k]!='_': sub[params[k]]='l.'+v
                    k+=1
            b=re.sub(r"(?<![\w'.-])("+'|'.join(re.escape(x) for x in sorted(sub,key=len,reverse=True))+r")(?![\w'-])",lambda m:sub[m.group(1)],b) if sub else b
            b=re.sub(r"λ l\.(?:initial\.)?(\w+)\. ",r"λ \1. ",b)
            out_inv.append((kind+'-'+n,b,g['com'],g['unf']))
        else:
            sgf=sg;
            def pl(m):
                x=m.group(1)
                for p in newplace:
                    if norm(p)==norm(x): return 'goal.'+newplace[p]
                return 'goal.'+x
            usedplace=re.search(r"(?:tie|lts)\.((?:After|Then|Else|In|At|Start|Arm|Case)[\w'-]*)",sg)
            place=None
            if usedplace:
                for p in newplace:
                    if norm(p)==norm(usedplace.group(1)): place=p
            sgf=re.sub(r"(?:tie|lts)\.((?:After|Then|Else|In|At|Start|Arm|Case)[\w'-]*)((?: invariant-loop[\w-]*| decreases-loop[\w-]*)*)",lambda m:pl(m),sg)
            if usedplace:
                sgf=fix(sgf,place); body=fix(body,place)
            out_help.append('\n'.join(g['com']+[sgf]+g['unf']+[body]))
    for sct in sections:
        mm=re.search(r"module _ \(c : (?:tie|lts)\.([^\s)]+)[^)]*\) where",sct)
        if mm:
            place=None
            for p in newplace:
                if norm(p)==norm(mm.group(1)): place=p
            b=fix(sct,place)
            b=re.sub(r"module _ \(c : (?:tie|lts)\.([^\s)]+)[^)]*\) where","module _ (c : goal.%s) where"%newplace.get(place,mm.group(1)),b)
            out_help.append(b)
            secmembers.append((newplace.get(place,mm.group(1)),[x for x in re.findall(r"(?m)^  (?:abbrev )?([^\s:(]+)(?: \([^)]*\))* : ",b)]))
        else: out_help.append(sct)
    # an answer that another cites goes by its goal's name
    ren={}
    for g in groups:
        for i,n,unf,b,com in out_ans:
            a=argmap.get(i)
            if a==g['name'] or a in('(%s t)'%g['name'],'(%s)'%g['name']): ren[g['name']]=(n,asked[i][1])
    for k,(n,p_) in ren.items():
        out_help=[re.sub(rf"(?<![\w'.-]){re.escape(k)}(?![\w'-])",n,h) for h in out_help]
        out_ans=[(i,n2,unf,re.sub(rf"(?<![\w'.-]){re.escape(k)}(?= c(?![\w'-]))",n,b),com) for i,n2,unf,b,com in out_ans]
    hplace={n:p_ for n,p_ in ren.values()}
    for h in out_help:
        mm=re.search(r"(?m)^(?:pub |abbrev )*([^\s:]+) : \(c : goal\.([^\s)]+)\)",h)
        if mm: hplace[mm.group(1)]=mm.group(2)
    for p_,ns_ in secmembers:
        for n_ in ns_: hplace[n_]=p_
    # a helper that cites one of an earlier place: a copy of that one at its own place
    made=set()
    for _ in range(3):
        extra=[]
        for k,h in enumerate(out_help):
            mm=re.search(r"(?m)^(?:pub |abbrev )*([^\s:]+) : \(c : goal\.([^\s)]+)\)",h)
            if not mm: continue
            at=mm.group(2)
            for h2,p2 in list(hplace.items()):
                if p2==at or h2==mm.group(1): continue
                if re.search(rf"(?<![\w'.-]){re.escape(h2)} c(?![\w'-])",h):
                    nn2=h2+'-'+at
                    h=re.sub(rf"(?<![\w'.-]){re.escape(h2)} c(?![\w'-])",nn2+' c',h)
                    if (h2,at) not in made:
                        made.add((h2,at))
                        src=[x for x in out_help if re.search(rf"(?m)^(?:pub |abbrev )*{re.escape(h2)} : \(c : goal\.",x)]
                        if src:
                            cp=re.sub(rf"(?m)^((?:pub |abbrev )*){re.escape(h2)}(?= )",r"\1"+nn2,src[0]).replace('goal.'+p2,'goal.'+at)
                            extra.append((k,cp)); print('COPY',path,nn2)
                        else: print('NOCOPY',path,h2)
            out_help[k]=h
        if not extra: break
        for k,cp in reversed(extra): out_help.insert(k,cp)
        for k,cp in extra:
            mm=re.search(r"(?m)^(?:pub |abbrev )*([^\s:]+) : \(c : goal\.([^\s)]+)\)",cp); hplace[mm.group(1)]=mm.group(2)
    if hplace:
        new=[]
        for i,n,unf,b,com in out_ans:
            at=asked[i][1]
            for h,pl_ in hplace.items():
                if pl_!=at: b=re.sub(rf"(?<![\w'.-]){re.escape(h)} c(?![\w'.-])",f"{h} (goal.at.{n} c).{pl_}",b)
            new.append((i,n,unf,b,com))
        out_ans=new
    fnname=rel.split('/')[-1].lstrip('+')
    if cyc:
        mu=[g for g in groups if g['name']=='μ']
        if mu:
            b=mu[0]['bodies'][0].split('=',1)[1].strip()
            own_=[x for x in sig.get(fnname,[]) if x[0]==cname]
            ps_=own_[0][1] if own_ else []
            def mp(m):
                idx,r,ok=decode(m.group(1),len(ps_))
                if idx is not None and idx<len(ps_): return 'l.'+ps_[idx]+r
                return m.group(0)
            b=re.sub(r"(?<![\w'.-])a((?:\.\d+)+)",mp,b)
            out_inv.append(('decreases-'+fnname,b,[],[]))
    out_help=[h for h in out_help if not re.match(r"(?:--[^\n]*\n)*(?:abbrev )?(?:μ|at-measure|at_measure|callees) :",h)]
    # the right overload: same crate, and the type's name in the path where there is one
    own=[x for x in sig.get(fnname,[]) if x[0]==cname]
    ens=own[0][3] if own else []
    if len(own)>1 and len(set(map(lambda x:tuple(map(str,x[3])),own)))>1: print('OVERLOAD',path,[x[3] for x in own])
    new=[]
    for i,n,unf,b,com in out_ans:
        a_=E['asked'].get(needs[i][0]) or (ens if n.startswith('returns') and len(ens)>1 and all(ens) else None)
        if a_: b=torecord(b,a_)
        new.append((i,n,unf,b,com))
    out_ans=new
    # write
    head=[]
    tl=text.split('\n')
    k=0
    while k<len(tl) and tl[k].startswith('--'): head.append(tl[k]); k+=1
    def dedupe(ts):
        return ts
    keepuse=[u for u in uses if not re.search(r"\.(Statement|Tie)\b|proofs\.[\w.+]*\.(Reads|Kinds)\b|\.Lts-|borrow\.Fn\.|proofs\.[\w.]*\+[\w.]+\.\{statement\}|Tie\.\{close\}",u)]
    text_all='\n'.join(b for _,_,_,b,_ in out_ans)+'\n'.join(out_help)
    os.remove(path)
    invtext='\n'.join(b for _,b,_,_ in out_inv)
    moved=[];chg=True
    while chg:
        chg=False
        for g in groups:
            if g in spec or g in moved: continue
            if 'tie.' in g['sig'] or 'lts.' in g['sig']: continue
            scope=invtext+'\n'.join(x['sig']+'\n'.join(x['bodies']) for x in moved)
            if re.search(r"(?<![\w'.-])"+re.escape(g['name'])+r"(?![\w'-])",scope) : moved.append(g); chg=True
    movednames=[g['name'] for g in moved]
    movedtext=[]
    for g in groups:
        if g in moved:
            s=g['sig']
            if 'pub' not in g['pre']: s=re.sub(r'^((?:abbrev |unfoldable )*)',lambda m:m.group(1)+'pub ',s,count=1)
            if 'record' in g['pre']: s=re.sub(r'(?m)^  (?!pub )(?=\w[\w-]* :)','  pub ',s)
            movedtext.append('\n'.join(g['com']+[s]+g['unf']+g['bodies']))
            hb='\n'.join(g['com']+[g['sig']]+g['unf']+['\n'.join(g['bodies'])])
            if hb in out_help: out_help.remove(hb)
    if out_inv:
        w='\n'.join(keepuse)+'\nuse Rattle.%s.proofs.%s.Given as goal\n'%(cname,mod)
        for x in movedtext: w+='\n'+x+'\n'
        for n,b,com,unf in out_inv:
            w+='\n'+('\n'.join(com)+'\n' if com else '')+'abbrev pub %s : goal.%s\n'%(n,n)+''.join(u+'\n' for u in unf)+'%s l = %s\n'%(n,b.strip())
        open(os.path.join(folder,'Invariants.antt'),'w',encoding='utf-8').write(w)
    if out_ans or out_help:
        w='\n'.join(head)+('\n' if head else '')+'\n'.join(keepuse)+'\nuse Rattle.%s.proofs.%s.Goals as goal\n'%(cname,mod)
        ps=sorted(set(x for h in out_help for x in re.findall(r"goal\.((?:After|Then|Else|In|At|Start|Arm|Case)[\w'-]*)",h)))
        if ps:
            w+='use Rattle.%s.proofs.%s.Goals.{%s}\n'%(cname,mod,', '.join(ps))
            out_help=[re.sub(r"goal\.((?:After|Then|Else|In|At|Start|Arm|Case)[\w'-]*)",r"\1",h) for h in out_help]
        if movednames and out_inv: w+='use Rattle.%s.proofs.%s.Invariants.{%s}\n'%(cname,mod,', '.join(movednames))
        for h in out_help: w+='\n'+h+'\n'
        for i,n,unf,b,com in sorted(out_ans):
            if n in used: print('TWICE',path,n)
            used.add(n)
            w+='\n'+('\n'.join(com)+'\n' if com else '')+'pub %s : goal.%s\n'%(n,n)+''.join(u.strip()+'\n' for u in unf)+'%s%s c =%s%s\n'%(n,t,'' if b.startswith('\n') else ' ',b.rstrip() if b.startswith('\n') else b.strip())
        open(os.path.join(folder,'Answers.antt'),'w',encoding='utf-8').write(w)
for p in sorted(glob.glob(os.path.join(crate,'proofs/**/Proof.antt'),recursive=True)):
    if only and not any(o in p for o in only): continue
    try: convert(p)
    except Exception as e:
        import traceback; print('FAIL',p,e); traceback.print_exc()
