import os,sys,re
d=sys.argv[1]
fs=[]
for r,_,names in os.walk(d):
    if r.endswith('/records'): continue
    for n in names:
        if n.endswith('.oantt'): fs.append((os.stat(os.path.join(r,n)).st_mtime,n))
fs.sort()
out=[];groups={}
for (a,_),(b,n) in zip(fs,fs[1:]):
    out.append((b-a,n))
    g=n.replace('.oantt','')
    kind='generated'
    m=re.match(r'Rattle·\w+·proofs\.proofs\.(.*)',g)
    if m:
        k=m.group(1).split('.')
        kind=k[-1] if len(k)>1 else 'laws-in-proofs'
    elif '·specs' in g: kind='specs'
    groups[kind]=groups.get(kind,0)+b-a
out.sort(reverse=True)
print('total',fs[-1][0]-fs[0][0], len(fs))
for k,v in sorted(groups.items(),key=lambda x:-x[1])[:14]: print('  %-20s %.1f'%(k,v))
for t,n in out[:int(sys.argv[2]) if len(sys.argv)>2 else 40]: print('%.2f %s'%(t,n))
