# Functions whose bodies are the same but for names, integer types and constants (at least 12 tokens), as groups; in a library or program alike.
import re,sys
KEY=set('let mut if else while for in return match fn self Self as true false break continue loop ref move pub struct impl'.split())
groups={}
for f in sys.argv[1:]:
    text=open(f).read()
    lines=text.split('\n'); i=0
    while i<len(lines):
        m=re.match(r'^( *)(pub(\(\w+\))? )?(extern "C" )?fn (\w+)',lines[i])
        m=m or re.match(r'^( *)(pub(\(\w+\))? )?(extern "C" )(fn )(\w+)',lines[i])
        if not m: i+=1; continue
        ind=m.group(1); name=re.search(r'fn (\w+)',lines[i]).group(1); start=i
        j=i
        while j<len(lines) and not (lines[j]==ind+'}' ):
            j+=1
            if j-i>400: break
        blk=lines[i:j+1]
        # body: from the first line that is ind+'{' or ends with ' {' at the signature
        b=None
        for k,l in enumerate(blk):
            if l==ind+'{' or (l.endswith('{') and not re.match(r'^ *(requires|ensures)',l)):
                b=k+1; break
        if b is not None:
            body=' '.join(re.sub(r'//.*','',l) for l in blk[b:-1])
            body=re.sub(r'0x[0-9a-f]+|\b[0-9][0-9_]*(u8|u32|u64|usize|i64|i32)?\b','#',body)
            toks=re.findall(r"\w+|#|::|[^\s\w]",body)
            names={}; out=[]
            for t in toks:
                if re.match(r'^(u8|u16|u32|u64|i32|i64|usize)$',t): out.append('T')
                elif t=='#' : out.append('#')
                elif re.match(r'^[A-Z][A-Z0-9_]*$',t): out.append('C')
                elif re.match(r'^\w',t) and t not in KEY: out.append(names.setdefault(t,'n%d'%len(names)))
                else: out.append(t)
            if len(out)>=12: groups.setdefault(' '.join(out),[]).append('%s:%d %s'%(f.replace('crates/',''),start+1,name))
        i=j+1 if j>i else i+1
for k,g in groups.items():
    if len(g)>1:
        for x in g: print(x,'= ',g[0] if x!=g[0] else '%d alike'%len(g))
