"""Random programs over records: `record_programs.py SEED` prints the program of that number. The rows of
crates/test_commands under the heading of programs drawn at random are among them."""
import random
import sys

if __name__ == "__main__" and sys.argv[1:] == ["--help"]:
    print(__doc__.strip())
    sys.exit()
SCHEMA='''ADD SEQUENCE "NextNum"
  INITIAL 10
  INCREMENT 5
ADD TABLE "Item"
ADD FIELD "ItemNum" OF "Item" AS integer
ADD FIELD "Name" OF "Item" AS character
  INITIAL "none"
ADD FIELD "Price" OF "Item" AS decimal
  MANDATORY
ADD FIELD "Sold" OF "Item" AS logical
ADD FIELD "Made" OF "Item" AS date
ADD INDEX "ItemNum" ON "Item"
  UNIQUE
  PRIMARY
  INDEX-FIELD "ItemNum" ASCENDING
ADD INDEX "Name" ON "Item"
  INDEX-FIELD "Name" ASCENDING
ADD INDEX "Price" ON "Item"
  INDEX-FIELD "Price" DESCENDING
  INDEX-FIELD "Name" ASCENDING
ADD TABLE "Line"
ADD FIELD "OrderNum" OF "Line" AS integer
ADD FIELD "LineNum" OF "Line" AS integer
ADD FIELD "Qty" OF "Line" AS int64
ADD INDEX "Key" ON "Line"
  UNIQUE
  PRIMARY
  INDEX-FIELD "OrderNum" ASCENDING
  INDEX-FIELD "LineNum" DESCENDING
ADD TABLE "Note"
ADD FIELD "Text" OF "Note" AS character
ADD FIELD "Size" OF "Note" AS integer
'''
FIELDS={'Item':[('ItemNum','i'),('Name','c'),('Price','d'),('Sold','b'),('Made','t')],'Line':[('OrderNum','i'),('LineNum','i'),('Qty','i')],'Note':[('Text','c'),('Size','i')]}
INDEXES={'Item':['ItemNum','Name','Price'],'Line':['Key'],'Note':[]}
class Gen:
    def __init__(self,seed):
        self.r=random.Random(seed); self.out=[]; self.depth=0
        r=self.r
        self.buffers={'Item':'Item','Line':'Line','Note':'Note'}
        self.used=r.sample(['Item','Item','Line','Note'],r.randint(1,3))
        self.labels=[]
        self.blocks=[]
    def names(self):
        r=self.r
        bs=list(set(self.used))+[b for b in self.extra]
        return r.choice(bs)
    def table(self,b): return self.buffers[b]
    def e(self,k,b=None):
        r=self.r
        if k=='i':
            c=r.random()
            if c<.5: return str(r.randint(0,6))
            if c<.7: return r.choice(['i','j'])
            if c<.8: return '%s + %d'%(r.choice('ij'),r.randint(0,3))
            if c<.86: return '?'
            if c<.93 and b: return self.fld(b,'i')
            return '-%d'%r.randint(0,3)
        if k=='c':
            c=r.random()
            if c<.6: return r.choice(['"a"','"b"','"B "','"cc"','""'])
            if c<.75: return 't'
            if c<.82: return '?'
            if c<.9: return 'STRING(%s)'%self.e('i')
            if b and c<.95: return self.fld(b,'c')
            return 't + "x"'
        if k=='d':
            c=r.random()
            if c<.6: return r.choice(['1.5','2','0','2.25','-1'])
            if c<.8: return r.choice(['i','j'])
            if c<.87: return '?'
            return '%s / 2'%r.choice('ij')
        if k=='b': return r.choice(['yes','no','?','(i = 2)','(j > i)'])
        return r.choice(['01/02/2024','12/31/1999','?','01/02/2024 + i'])
    def fld(self,b,k):
        fs=[f for f,x in FIELDS[self.table(b)] if x==k]
        if not fs: return {'i':'1','c':'"q"','d':'1','b':'yes','t':'?'}[k]
        return b+'.'+self.r.choice(fs)
    def where(self,b):
        r=self.r
        parts=[]
        for _ in range(r.choice([0,1,1,2])):
            f,k=r.choice(FIELDS[self.table(b)])
            op=r.choice(['=','=','=','EQ','<>','>','<=','BEGINS'])
            if op=='BEGINS' and k!='c': op='='
            if k=='b' and op in('>','<='): op='='
            parts.append('%s.%s %s %s'%(b,f,op,self.e(k)))
        if not parts: return ''
        return ' WHERE '+r.choice([' AND ',' AND ',' OR ']).join(parts)
    def opts(self,b,lock=None):
        r=self.r
        s=self.where(b)
        if INDEXES[self.table(b)] and r.random()<.3: s+=' USE-INDEX '+r.choice(INDEXES[self.table(b)])
        l=r.choice(['',' NO-LOCK',' SHARE-LOCK',' EXCLUSIVE-LOCK',' EXCLUSIVE-LOCK']) if lock is None else lock
        return s+l
    def ne(self,p=.55): return ' NO-ERROR' if self.r.random()<p else ''
    def act(self):
        r=self.r
        its=[b for b in self.blocks if b[1]]
        c=r.random()
        if c<.3: return ''
        if c<.55: return ', LEAVE'
        if c<.75: return ', RETRY'
        if c<.9: return ', NEXT' if self.undo_iter() else ', LEAVE'
        return ', RETURN'
    def undo_iter(self):
        for b in reversed(self.blocks):
            if b[2]: return b[1]
        return False
    def stmt(self,ind):
        r=self.r; p='  '*ind
        b=self.names(); t=self.table(b)
        c=r.random()
        if c<.16:
            self.out.append(p+'CREATE %s%s.'%(b,self.ne()))
            if r.random()<.8: self.assign(p,b)
        elif c<.36:
            w=r.choice(['','FIRST ','LAST ','NEXT ','PREV ','FIRST ','CURRENT '])
            o=self.opts(b) if w!='CURRENT ' else r.choice(['',' NO-LOCK',' EXCLUSIVE-LOCK'])
            self.out.append(p+'FIND %s%s%s%s%s.'%(w,b,o,r.choice(['',' NO-WAIT']) if r.random()<.2 else '',self.ne(.5)))
        elif c<.52: self.assign(p,b)
        elif c<.57: self.out.append(p+'DELETE %s%s.'%(b,self.ne(.5)))
        elif c<.62: self.out.append(p+'RELEASE %s%s.'%(b,self.ne(.5)))
        elif c<.72:
            self.out.append(p+'IF AVAILABLE %s THEN MESSAGE "%s" %s LOCKED(%s).'%(b,b,' '.join(b+'.'+f for f,_ in FIELDS[t]),b))
        elif c<.76: self.out.append(p+'MESSAGE i j t ERROR-STATUS:ERROR RETURN-VALUE.')
        elif c<.79: self.out.append(p+r.choice(['i = i + 1.','j = j + 1.','t = t + "y".','i = %s.'%self.e('i',b),'i = NEXT-VALUE(NextNum).','j = CURRENT-VALUE(NextNum).']))
        elif c<.82 and self.blocks and self.undo_any(): self.out.append(p+'UNDO%s.'%self.act())
        elif c<.84 and any(x[1] for x in self.blocks): self.out.append(p+r.choice(['LEAVE.','NEXT.']))
        elif c<.86: self.out.append(p+'EXPORT %s.'%b)
        elif c<.87 and self.procs: self.out.append(p+'RUN p1 (i)%s.'%self.ne())
        elif c<.88: self.out.append(p+'IMPORT %s%s.'%(b,self.ne()))
        elif self.depth<3: self.block(ind)
        else: self.out.append(p+'i = i + 1.')
    def undo_any(self): return True
    def assign(self,p,b):
        r=self.r; fs=FIELDS[self.table(b)]
        n=r.choice([1,1,2,3])
        ps=[]
        for f,k in r.sample(fs,min(n,len(fs))):
            ps.append('%s.%s = %s'%(b,f,'NEXT-VALUE(NextNum)' if k=='i' and r.random()<.05 else self.e(k,b)))
        if r.random()<.1: ps.insert(r.randrange(len(ps)+1),'i = i + 1')
        if len(ps)==1: self.out.append(p+ps[0]+self.ne()+'.')
        else: self.out.append(p+'ASSIGN '+' '.join(ps)+self.ne()+'.')
    def block(self,ind):
        r=self.r; p='  '*ind; self.depth+=1
        c=r.random(); retry=r.random()<.15
        onp=''
        if r.random()<.35: onp+=' ON ERROR UNDO'+r.choice(['',', LEAVE',', RETRY',', RETURN'])
        if r.random()<.1: onp+=' ON ENDKEY UNDO'+r.choice(['',', LEAVE'])
        if c<.35:
            b=self.names()
            self.out.append(p+'FOR %s %s%s%s%s:'%(r.choice(['EACH','EACH','EACH','FIRST','LAST']),b,self.opts(b),' TRANSACTION' if r.random()<.1 else '',onp))
            self.blocks.append((None,True,True))
        elif c<.55:
            f=''
            if r.random()<.3: f=' FOR '+self.names()
            self.out.append(p+'REPEAT%s i = 1 TO %d%s:'%(f,r.randint(1,4),onp)); self.blocks.append((None,True,True))
        elif c<.7:
            self.out.append(p+'DO j = 1 TO %d%s:'%(r.randint(1,4),onp)); self.blocks.append((None,True,bool(onp)))
        elif c<.9:
            f=' FOR '+self.names() if r.random()<.25 else ''
            self.out.append(p+'DO%s TRANSACTION%s:'%(f,onp)); self.blocks.append((None,False,True))
        else:
            self.out.append(p+'DO%s:'%onp); self.blocks.append((None,False,bool(onp)))
        if r.random()<.12: self.out.append(p+'  IF RETRY THEN DO: MESSAGE "again". LEAVE. END.' if self.blocks[-1][1] else p+'  MESSAGE "in".')
        for _ in range(r.randint(1,5)): self.stmt(ind+1)
        self.blocks.pop()
        self.out.append(p+'END.')
        self.depth-=1
    def program(self):
        r=self.r
        self.out=['DEFINE VARIABLE i AS INTEGER.','DEFINE VARIABLE j AS INTEGER NO-UNDO.','DEFINE VARIABLE t AS CHARACTER.']
        self.extra=[]
        if r.random()<.3:
            tb=r.choice(self.used); self.out.append('DEFINE BUFFER two FOR %s.'%tb); self.buffers['two']=tb; self.extra=['two']
        self.procs=r.random()<.2
        # some rows to begin with
        if r.random()<.7:
            tb='Item' if 'Item' in self.used else self.used[0]
            if tb=='Item': self.out+=['DO i = 1 TO %d TRANSACTION:'%r.randint(1,5),'  CREATE Item.','  ASSIGN Item.ItemNum = i Item.Name = SUBSTRING("abcab", i, 1) Item.Price = i / 2.','END.','RELEASE Item NO-ERROR.']
            elif tb=='Line': self.out+=['DO i = 1 TO %d TRANSACTION:'%r.randint(1,5),'  CREATE Line.','  ASSIGN Line.OrderNum = i MODULO 2 Line.LineNum = i.','END.']
            else: self.out+=['DO i = 1 TO %d TRANSACTION:'%r.randint(1,5),'  CREATE Note.','  ASSIGN Note.Text = STRING(i) Note.Size = i.','END.']
        for _ in range(r.randint(3,12)):
            if r.random()<.3:
                self.out.append('DO ON ERROR UNDO, LEAVE:'); self.blocks.append((None,False,True)); self.depth+=1
                for _ in range(r.randint(1,4)): self.stmt(1)
                self.blocks.pop(); self.depth-=1; self.out.append('END.')
            else: self.stmt(0)
        if self.procs:
            save=self.extra; self.extra=[]
            self.out.append('PROCEDURE p1:'); self.out.append('  DEFINE INPUT PARAMETER n AS INTEGER.')
            self.blocks=[]; self.depth=1; self.procs=False
            for _ in range(r.randint(1,5)): self.stmt(1)
            self.out.append('END.')
            self.extra=save
        self.out.append('')
        return '\n'.join(self.out)
def program(seed): return Gen(seed).program()
INPUT='1 "a" 2.5 yes 01/02/2024\n2 b\nx y\n3 "c" ? no ?\n'
if __name__=='__main__':
    import sys
    print(program(int(sys.argv[1])))
