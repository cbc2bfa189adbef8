"""Merges crates of this repository into one, over a clean clone, and leaves the result uncommitted.

Used as in

    run("rw_kept_log", {"rw_journal": ({"closing": "torn_end"}, {}),
                        "rw_reopen": ({}, {"proofs/shared": {"OpeningLemmas": "ReopeningLemmas"}})},
        {}, "//! The head comment of lib.rt.\\n")

which gives for each crate its modules with new names, and its files of definitions and lemmas with
new names. What has to be looked at by hand afterwards: types with the same name, a module named as
a function that is re-exported, README.md, the documents, and `rt fmt` in each crate that changed.
"""
import os,re,subprocess,sys,shutil
from collections import defaultdict
def git(*w): subprocess.run(["git",*w],check=True)
def files():
    out=subprocess.run(["git","ls-files"],stdout=subprocess.PIPE,encoding="utf8",check=True).stdout.split("\n")
    return [f for f in out if f and not os.path.islink(f) and os.path.isfile(f) and not f.startswith("pending/") and not f.endswith((".xz",".png",".svg"))]
def mv(a,b):
    os.makedirs(os.path.dirname(b),exist_ok=True)
    assert not os.path.exists(b),(a,b)
    git("mv",a,b)
def lines(p):
    return [l.rstrip("\n") for l in open(p)] if os.path.exists(p) else []
# plan: into -> list of (crate, {src module: new}, {antt module (file stem path): new})
def merge(into,parts,types={},head=None):
    """parts: crate -> (src renames, spec/proof file renames by stem)."""
    root=f"crates/{into}"
    is_new=not os.path.isdir(root)
    idx={"specs/Lib.antt":[], "specs/inner.antt":[], "proofs/Lib.antt":[], "proofs/shared.antt":[]}
    for k in idx:
        for l in lines(f"{root}/{k}"): idx[k].append(l)
    libs=[]
    for c,(srcs,stems) in parts.items():
        r=f"crates/{c}"
        for k in idx:
            for l in lines(f"{r}/{k}"):
                m=re.fullmatch(r"((?:pub )?mod )(\w+)",l)
                if m and m[2] in stems.get(os.path.dirname(k) if k.endswith("Lib.antt") else k[:-5],{}):
                    l=m[1]+stems[os.path.dirname(k) if k.endswith("Lib.antt") else k[:-5]][m[2]]
                if l.strip() and l not in idx[k]: idx[k].append(l)
        libs.append((c,open(f"{r}/src/lib.rt").read()))
        for d,_,names in list(os.walk(r)):
            for n in sorted(names):
                p=f"{d}/{n}"; rel=os.path.relpath(p,r)
                if subprocess.run(["git","ls-files","--error-unmatch",p],stdout=subprocess.DEVNULL,stderr=subprocess.DEVNULL).returncode: continue
                if rel in ("src/lib.rt","specs/Lib.antt","specs/inner.antt","proofs/Lib.antt","proofs/shared.antt","README.md"): continue
                seg=rel.split("/")
                if seg[0]=="src": seg[1]=srcs.get(seg[1][:-3],seg[1][:-3])+".rt"
                elif seg[0]=="proofs" and len(seg)>2 and seg[1]!="shared": seg[1]=srcs.get(seg[1],seg[1])
                elif seg[0] in("specs","proofs"):
                    key="/".join(seg[:-1]); stem=seg[-1][:-5]
                    seg[-1]=stems.get(key,{}).get(stem,stem)+".antt"
                mv(p,f"{root}/"+"/".join(seg))
    for k,ls in idx.items():
        if ls:
            os.makedirs(os.path.dirname(f"{root}/{k}"),exist_ok=True)
            subm=[l for l in ls if re.search(r"mod (inner|shared)$",l)]
            rest=sorted((l for l in ls if l not in subm),key=lambda l:l.split()[-1])
            open(f"{root}/{k}","w").write("\n".join(rest+sorted(set(subm)))+"\n"); git("add",f"{root}/{k}")
    # text
    for f in files():
        try: t=open(f,encoding="utf8").read()
        except UnicodeDecodeError: continue
        n=t
        inside=f.startswith(root+"/")
        for c,(srcs,stems) in parts.items():
            if f.endswith((".antt",".rt",".edit")):
                for key,ren in stems.items():
                    for a,b in ren.items():
                        n=re.sub(rf"\bRattle\.{c}\.{key.replace('/','.')}\.{a}\b",f"Rattle.{c}.{key.replace('/','.')}.{b}",n)
                for a,b in srcs.items():
                    n=re.sub(rf"\bRattle\.{c}\.specs\.declared\.{a}\b",f"Rattle.{c}.specs.declared.{b}",n)
                    n=re.sub(rf"\bRattle\.{c}\.proofs\.{a}\.",f"Rattle.{c}.proofs.{b}.",n)
                    n=re.sub(rf"\bRattle\.{c}\.specs\.contracts\.{a}\b",f"Rattle.{c}.specs.contracts.{b}",n)
                    n=re.sub(rf"\b{c}::{a}::",f"{c}::{b}::",n)
                n=re.sub(rf"\bRattle\.{c}\.",f"Rattle.{into}.",n)
                n=re.sub(rf"\b{c}::",("crate::" if inside else f"{into}::"),n)
        if n!=t: open(f,"w",encoding="utf8").write(n)
    # inside the moved files: crate::old:: -> crate::new::
    for c,(srcs,stems) in parts.items():
        pass
    return libs

def exports(libs_text):
    """name -> module of `pub use m::{..}` lines of a lib.rt"""
    out={}
    for m in re.finditer(r"pub use (\w+)::(\{[^}]*\}|\w+);",libs_text):
        names=m[2].strip("{}").replace("\n"," ").split(",")
        for n in names:
            n=n.strip()
            if n: out[n]=m[1]
    return out

def run(into,parts,types,doc,keep_exports=True):
    root=f"crates/{into}"
    texts={c:open(f"crates/{c}/src/lib.rt").read() for c in parts}
    ex={}
    for c,(srcs,stems) in parts.items():
        for n,m in exports(texts[c]).items(): ex[(c,n)]=srcs.get(m,m)
        # module renames inside the crate
        for f in files():
            if f.startswith(f"crates/{c}/") and f.endswith((".rt",".edit")):
                t=open(f,encoding="utf8").read(); n=t
                for a,b in srcs.items():
                    n=re.sub(rf"\bcrate::{a}::",f"crate::{b}::",n)
                    n=re.sub(rf"(?m)^file: src/{a}\.rt$",f"file: src/{b}.rt",n)
                for key,ren in stems.items():
                    for a,b in ren.items(): n=re.sub(rf"(?m)^file: {key}/{a}\.antt$",f"file: {key}/{b}.antt",n)
                if n!=t: open(f,"w",encoding="utf8").write(n)
    into_text=open(f"{root}/src/lib.rt").read() if os.path.exists(f"{root}/src/lib.rt") else ""
    # inside: use c::{A,B} -> use crate::mod::A
    names={c for c in parts}
    def inner_use(m):
        c=m[1]; body=m[2]
        items=[i.strip() for i in body.strip("{}").replace("\n"," ").split(",") if i.strip()]
        out=[]
        for i in items:
            base=i.split(" as ")[0].strip()
            first=base.split("::")[0]
            srcs=parts[c][0]
            if "::" in base: 
                rest=base.split("::",1)[1]
                out.append(f"use crate::{srcs.get(first,first)}::{rest}"+(i[len(base):])+";")
            elif (c,base) in ex: out.append(f"use crate::{ex[(c,base)]}::{i};")
            else: out.append(f"use crate::{i};")
        return "\n".join(out)
    for f in files():
        if f.endswith(".rt") and (f.startswith(root+"/") or any(f.startswith(f"crates/{c}/") for c in parts)):
            t=open(f,encoding="utf8").read(); n=t
            for c in parts:
                n=re.sub(rf"(?m)^use ({c})::(\{{[^}}]*\}}|[\w:]+(?: as \w+)?);",inner_use,n)
            if n!=t: open(f,"w",encoding="utf8").write(n)
    merge(into,parts)
    # lib.rt
    mods=[];uses=[];priv=into_text
    def collect(t,srcs):
        for m in re.finditer(r"(?m)^((?:pub )?)mod (\w+);",t): mods.append((srcs.get(m[2],m[2]),m[1]))
        for m in re.finditer(r"(?m)^pub use ([\w:]+)(::\{[^}]*\})?;",t):
            p=m[1]; first=p.split("::")[0]
            if first in srcs: p=srcs[first]+p[len(first):]
            uses.append(f"pub use {p}{m[2] or ''};")
    collect(into_text,{})
    for c,(srcs,_) in parts.items():
        if keep_exports: collect(texts[c],srcs)
        else:
            for m in re.finditer(r"(?m)^((?:pub )?)mod (\w+);",texts[c]): mods.append((srcs.get(m[2],m[2]),m[1]))
    lib=doc+"#![tactic(auto)]\n\n"+"".join(f"{v}mod {m};\n" for m,v in sorted(set(mods)))+"\n"+"\n".join(uses)+"\n"
    os.makedirs(f"{root}/src",exist_ok=True)
    open(f"{root}/src/lib.rt","w").write(lib); git("add",f"{root}/src/lib.rt")
    for c in parts: git("rm","-q",f"crates/{c}/src/lib.rt"); 
    for c in parts:
        for k in ("specs/Lib.antt","specs/inner.antt","proofs/Lib.antt","proofs/shared.antt"):
            if os.path.exists(f"crates/{c}/{k}"): git("rm","-qf",f"crates/{c}/{k}")
    # crates.txt
    ls=lines("crates.txt"); deps=defaultdict(list); new=[]
    union=[]
    for l in ls:
        m=re.match(r"(\w+)((?: +\w+=\S+)*)( *):(.*)$",l)
        if m and m[1] in parts:
            for d in m[4].split():
                if d not in parts and d!=into and d not in union: union.append(d)
    placed=False
    last=max(i for i,l in enumerate(ls) if l.split(":")[0].split(" ")[0] in parts)
    for i,l in enumerate(ls):
        m=re.match(r"(\w+)((?: +\w+=\S+)*)( *):(.*)$",l)
        if m and m[1] in parts:
            if i==last and not os.path.exists("/nonexistent") and not any(x.startswith(into+":") or x.startswith(into+" ") for x in ls):
                new.append(f"{into}: "+" ".join(union))
            continue
        if m:
            ds=[]
            for d in m[4].split():
                d=into if d in parts else d
                if d==m[1]: continue
                if d not in ds: ds.append(d)
            if m[1]==into:
                for d in union:
                    if d not in ds: ds.append(d)
            l=m[1]+m[2]+":"+(" "+" ".join(ds) if ds else "")
        new.append(l)
    open("crates.txt","w").write("\n".join(new)+"\n")
