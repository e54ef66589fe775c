#!/usr/bin/env python3
"""sets::f(a, b) as methods of the trait Mask: python3 sets_methods.py CRATE_DIR.."""
import re, sys, os
F={'has':'has','within':'within','intersection':'intersection','union':'union','difference':'difference','insert':'insert','remove':'remove','is_empty':'is_empty','count':'count','lowest':'lowest',
'has_object':'has','objects_within':'within','insert_object':'insert','remove_object':'remove','no_objects':'is_empty','lowest_object':'lowest'}
def args(s,i):
    # s[i]=='('
    d=0; out=[]; start=i+1
    j=i
    while True:
        ch=s[j]
        if ch in '([{': d+=1
        elif ch in ')]}':
            d-=1
            if d==0:
                out.append(s[start:j]); return out,j+1
        elif ch==',' and d==1:
            out.append(s[start:j]); start=j+1
        j+=1
def wrap(a):
    a=a.strip()
    if re.fullmatch(r'\*[\w.]+',a): return a[1:]      # a method call goes through the reference
    if re.search(r'^[*!&-]| as | [-+*/%&|^<>=]+ ',a) and not re.fullmatch(r'[\w:.]+\(.*\)',a): return '('+a+')'
    return a
def conv(s):
    n=0
    while True:
        # innermost last: take the last occurrence first
        m=None
        for m in re.finditer(r'\bsets::(\w+)\(',s):
            pass
        ms=[m for m in re.finditer(r'\bsets::(\w+)\(',s) if m.group(1) in F or m.group(1) in ('single','single_object')]
        if not ms: return s,n
        m=ms[-1]
        a,e=args(s,m.end()-1)
        f=m.group(1); n+=1
        a=[x.strip() for x in a if x.strip()]
        if f=='single': r='AttributeSet::single(%s)'%a[0]
        elif f=='single_object': r='ObjectSet::single(%s)'%a[0]
        else: r='%s.%s(%s)'%(wrap(a[0]),F[f],', '.join(a[1:]))
        s=s[:m.start()]+r+s[e:]
def main():
    for d in sys.argv[1:]:
        tot=0
        for f in sorted(os.listdir(d+'/src')):
            p=d+'/src/'+f
            s=open(p).read()
            s2,n=conv(s)
            if n:
                tot+=n
                m=re.search(r'^use sets::\{([^}]*)\};',s2,re.M)
                need=['Mask']+[t for t in ('AttributeSet','ObjectSet') if t+'::' in s2]
                if m:
                    names=sorted(set(x.strip() for x in m.group(1).split(','))|set(need),key=lambda x:(x!=x.upper(),x))
                    s2=s2[:m.start()]+'use sets::{'+', '.join(names)+'};'+s2[m.end():]
                elif re.search(r'^use sets::(\w+);',s2,re.M):
                    s2=re.sub(r'^use sets::(\w+);',lambda m:'use sets::{'+', '.join(sorted(set(need+[m.group(1)])))+'};',s2,count=1,flags=re.M)
                else:
                    k=s2.index('\nuse ') if '\nuse ' in s2 else None
                    line='use sets::%s;\n'%('Mask' if need==['Mask'] else '{'+', '.join(sorted(need))+'}')
                    if k is not None: s2=s2[:k+1]+line+s2[k+1:]
                    else:
                        g=list(re.finditer(r'^ghost use [^;]*;\n',s2,re.M))
                        if g: s2=s2[:g[-1].end()]+'\n'+line+s2[g[-1].end():]
                        else:
                            k=re.match(r'(//[^\n]*\n)*',s2).end()
                            s2=s2[:k]+line+'\n'+s2[k:].lstrip('\n')
                open(p,'w').write(s2)
        # proofs: steps named after the old functions
        pn=0
        for root,_,fs in os.walk(d+'/proofs'):
            if root==d+'/proofs': continue
            for f in fs:
                if not f.endswith('.antt'): continue
                p=os.path.join(root,f); s=open(p).read(); o=s
                for a,b in (('has_object','has'),('objects_within','within'),('insert_object','insert'),('remove_object','remove'),('no_objects','is_empty'),('lowest_object','lowest'),('single_object','single')):
                    s=re.sub(r'(?<=[-.+])%s(?=[-.+ ,;)}\n\]]|$)'%a,b,s); s=re.sub(r'(?<![\w])%s(?=-)'%a,b,s)
                if s!=o: open(p,'w').write(s); pn+=1
        # edits
        en=0
        md=d+'/must-fail'
        if os.path.isdir(md):
            for f in sorted(os.listdir(md)):
                p=md+'/'+f; L=open(p).read().split('\n'); o=list(L)
                if not any(l.startswith('file: src/') for l in L): 
                    pass
                for i,l in enumerate(L):
                    if l.startswith('old: ') or l.startswith('new: '):
                        try: L[i]=l[:5]+conv(l[5:])[0]
                        except Exception as ex: print('edit',p,l,ex)
                if L!=o: open(p,'w').write('\n'.join(L)); en+=1
        print(d,'calls',tot,'proof files',pn,'edits',en)
main()
