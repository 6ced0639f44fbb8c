"""Pages of HTML: one picture, or a film with a slider. One file each, with nothing from a network."""
import json
from html import escape

from .drawing import STYLE, WIDTH

LOOK = """
body{margin:0 auto;max-width:1240px;padding:12px 20px 40px;font:14px system-ui,'DejaVu Sans',Arial,sans-serif;color:#222;background:#fff}
h1{font-size:17px;margin:4px 0 8px}svg.p{display:block;width:100%;max-width:1204px;height:auto}
#say{position:fixed;left:0;right:0;bottom:0;background:#222;color:#fff;padding:5px 20px;font-size:13px;min-height:18px}#say:empty{display:none}
#film{position:sticky;top:0;background:#fff;border-bottom:1px solid #ccc;padding:6px 0 8px;margin-bottom:8px;z-index:1}
#film input{width:70%;vertical-align:middle}#film button{font:inherit;padding:1px 9px}
#what{font-weight:600;margin-top:4px}#why{color:#555;min-height:2.6em;line-height:1.3em}
.new{box-shadow:-4px 0 0 #d4002a}
@media print{#say,#film input,#film button{display:none}#film{position:static}.new{box-shadow:none}
body{padding:0;-webkit-print-color-adjust:exact;print-color-adjust:exact}svg.p{break-inside:avoid}}
"""

HOVER = """
const say=document.getElementById('say');
document.addEventListener('mouseover',e=>{
  const t=e.target.querySelector&&e.target.closest('rect');const w=t&&t.querySelector('title');say.textContent=w?w.textContent:''});
"""

FILM = """
const stack=document.getElementById('stack'),slide=document.getElementById('slide'),count=document.getElementById('count');
let now=[],timer=null;
function show(k){
  const f=FRAMES[k],ids=f[2],old=now;
  while(stack.children.length>ids.length)stack.lastChild.remove();
  ids.forEach((id,i)=>{
    let s=stack.children[i];
    if(!s){s=document.createElementNS('http://www.w3.org/2000/svg','svg');s.setAttribute('class','p');stack.appendChild(s)}
    const isNew=old.length>0&&!old.includes(id);
    s.setAttribute('class',isNew?'p new':'p');
    if(s.dataset.id!==String(id)){const p=PARTS[id];s.setAttribute('viewBox','0 0 WIDE '+p[0]);s.innerHTML=p[1];s.dataset.id=id}
  });
  now=ids;slide.value=k;count.textContent=(k+1)+' of '+FRAMES.length;
  document.getElementById('what').textContent=f[0];document.getElementById('why').textContent=f[1];
}
function step(by){show(Math.max(0,Math.min(FRAMES.length-1,+slide.value+by)))}
function play(){const b=document.getElementById('play');
  if(timer){clearInterval(timer);timer=null;b.textContent='play'}
  else{if(+slide.value===FRAMES.length-1)show(0);b.textContent='stop';timer=setInterval(()=>{if(+slide.value<FRAMES.length-1)step(1);else play()},350)}}
slide.oninput=()=>show(+slide.value);
document.getElementById('back').onclick=()=>step(-1);document.getElementById('next').onclick=()=>step(1);document.getElementById('play').onclick=play;
document.addEventListener('keydown',e=>{if(e.target!==slide&&(e.key==='ArrowLeft'||e.key==='ArrowRight'))step(e.key==='ArrowLeft'?-1:1)});
const wanted=parseInt(location.hash.slice(1));show(wanted>0?Math.min(wanted,FRAMES.length)-1:FRAMES.length-1);
"""


def whole(title, body, code):
    return (f'<!doctype html>\n<html lang="en"><head><meta charset="utf-8"><meta name="viewport" content="width=device-width"><title>{escape(title)}</title>'
            f'<style>{STYLE}{LOOK}</style></head><body><h1>{escape(title)}</h1>{body}<div id="say"></div><script>{code}</script></body></html>\n')


def picture(parts, title):
    """A page of one picture."""
    body = ''.join(f'<svg class="p" viewBox="0 0 {WIDTH} {it.height}">{it.svg}</svg>' for it in parts)
    return whole(title, body, HOVER)


class Film:
    """Frames, each a list of parts; a part that stays the same is kept once. Where the page would be too large, each second frame goes."""
    MOST = 40_000_000

    def __init__(self):
        self.frames, self.seen, self.size = [], set(), 0
        self.every = 1          # frames that were added for one that is kept
        self.added = 0

    def add(self, what, why, parts, is_last=False):
        self.added += 1
        if self.added % self.every and not is_last:
            return
        self.frames.append((what, why, parts))
        self.weigh(parts)
        while self.size > self.MOST and len(self.frames) > 2:
            self.frames = self.frames[1::2] if len(self.frames) % 2 == 0 else self.frames[::2]
            self.every *= 2
            self.seen, self.size = set(), 0
            for _, _, kept in self.frames:
                self.weigh(kept)

    def weigh(self, parts):
        for part in parts:
            if part not in self.seen:
                self.seen.add(part)
                self.size += len(part.svg)

    def numbered(self):
        """The parts, each once, and the frames by their numbers."""
        parts, numbers, frames = [], {}, []
        for what, why, shown in self.frames:
            for part in shown:
                if part not in numbers:
                    numbers[part] = len(parts)
                    parts.append([part.height, part.svg])
            frames.append([what, why, [numbers[it] for it in shown]])
        return parts, frames

    def page(self, title):
        bar = ('<div id="film"><button id="back">&lt;</button> <button id="play">play</button> <button id="next">&gt;</button> '
               f'<input id="slide" type="range" min="0" max="{len(self.frames) - 1}" value="0" aria-label="command"> <span id="count"></span>'
               '<div id="what"></div><div id="why"></div></div><div id="stack"></div>')
        parts, frames = self.numbered()
        data = f'const PARTS={safe(parts)};\nconst FRAMES={safe(frames)};\n'
        return whole(title, bar, data + FILM.replace('WIDE', str(WIDTH)) + HOVER)


def safe(value):
    """JSON that may stand in a script of a page."""
    return json.dumps(value, separators=(',', ':'), ensure_ascii=False).replace('</', '<\\/').replace('\u2028', '\\u2028')
