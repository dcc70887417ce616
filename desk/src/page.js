// Zoom: the day grows, the bars with it, as they are placed in parts of its width; the axes are drawn anew.
const $ = id => document.getElementById(id);
const day = $('day'), scroll_ = $('scroll'), cursor = $('cursor');
const from = Number(day.dataset.from), to = Number(day.dataset.to), raw = day.dataset.raw === '1';
let zoom = 1, zone = 'UTC';

// A zone's wall clock, by the browser's own zone database: its parts at an instant.
const clocks = {};
function parts(second) {
  const two = '2-digit', date = { year: 'numeric', month: two, day: two }, time = { hour: two, minute: two, second: two };
  const how = { timeZone: zone, hourCycle: 'h23', ...date, ...time, timeZoneName: 'shortOffset' };
  const clock = clocks[zone] = clocks[zone] || new Intl.DateTimeFormat('en-GB', how);
  return Object.fromEntries(clock.formatToParts(second * 1000).map(p => [p.type, p.value]));
}

// How many seconds the zone is ahead of UTC at an instant.
function ahead(second) {
  const p = parts(second);
  return Date.UTC(p.year, p.month - 1, p.day, p.hour, p.minute, p.second) / 1000 - Math.floor(second);
}

// The instant of a wall clock, which counts as UTC here: the zone's offset is taken at the instant itself, so that a day of 23 or 25 hours
// is right.
function instant(wall) {
  const first = wall - ahead(wall);
  return wall - ahead(first);
}

function local(second, step) {
  const p = parts(second), part = step < 1 ? (second % 1).toFixed(3).slice(1) : '';
  return `${p.hour}:${p.minute}:${p.second}${part}`;
}

function utc(second, step) {
  if (raw) return String(Math.round(second * 1e6) / 1e6);
  return new Date(second * 1000).toISOString().slice(11, step < 1 ? 23 : 19);
}

function drawAxis(axis, label) {
  const steps = [.001, .01, .1, 1, 2, 5, 10, 15, 30, 60, 120, 300, 600, 900, 1800, 3600, 7200, 14400, 28800, 86400];
  const many = Math.min(8, Math.max(2, Math.floor(scroll_.clientWidth / 130)));
  const step = steps.find(s => (to - from) / s <= many * zoom) || 86400 * Math.ceil((to - from) / 86400 / many);
  axis.replaceChildren();
  for (let at = Math.ceil(from / step) * step; at < to; at += step) {
    const tick = document.createElement('span');
    tick.className = 'tick';
    tick.style.left = (at - from) / (to - from) * 100 + '%';
    tick.textContent = label(at, step);
    axis.append(tick);
  }
}

// The local axis names the offset at its first tick and wherever it changes.
function drawAxes() {
  drawAxis($('utc'), (at, step) => utc(at, step) + (raw ? '' : ' UTC'));
  let last;
  $('local').hidden = raw || zone === 'UTC';
  if (!$('local').hidden) drawAxis($('local'), (at, step) => {
    const offset = parts(at).timeZoneName, named = offset === last ? '' : ' ' + offset;
    last = offset;
    return local(at, step) + named;
  });
}

// set(zoom, x): zooms, and keeps what stands x pixels from the left edge there
function set(next, x) {
  next = Math.min(2000, Math.max(1, next));
  const at = (scroll_.scrollLeft + x) / day.offsetWidth;
  zoom = next;
  day.style.width = zoom * 100 + '%';
  drawAxes();
  scroll_.scrollLeft = at * day.offsetWidth - x;
  $('zoom').textContent = zoom.toFixed(zoom < 10 ? 1 : 0) + 'x';
}

// Local times below the table's times in UTC.
function setZone(name) {
  try { new Intl.DateTimeFormat('en', { timeZone: name }); } catch { return; }
  zone = name;
  $('zone').value = name;
  for (const cell of document.querySelectorAll('td[data-at]')) {
    cell.querySelector('.local')?.remove();
    if (raw || zone === 'UTC') continue;
    const p = parts(Number(cell.dataset.at)), text = document.createElement('span');
    text.className = 'local';
    text.textContent = `${p.year}-${p.month}-${p.day} ${p.hour}:${p.minute}:${p.second} ${p.timeZoneName}`;
    cell.append(text);
  }
  drawAxes();
}

// An instant in words: seconds, HH:MM[:SS] or a date with it; in the chosen zone, or in UTC with a Z.
function read(text) {
  text = text.trim();
  if (/^\d{5,}(\.\d+)?$/.test(text)) return Number(text);
  const found = text.match(/^(?:(\d{4})-(\d\d)-(\d\d)[T ])?(\d\d?):(\d\d)(?::(\d\d(?:\.\d+)?))?(Z?)$/);
  if (!found) return NaN;
  const [, y, m, d, h, min, s, z] = found;
  const clock = h * 3600 + min * 60 + Number(s || 0), moment = wall => z ? wall : instant(wall);
  if (y) return moment(Date.UTC(y, m - 1, d) / 1000 + clock);
  const ours = z ? from : from + ahead(from);
  const at = [0, 1].map(n => moment((Math.floor(ours / 86400) + n) * 86400 + clock));
  return at.find(t => t >= from && t <= to) ?? at[0];
}

// Shows an instant in the middle, at most ten minutes around it.
function goTo(second) {
  if (!(second >= from && second <= to)) return false;
  set(Math.max(zoom, (to - from) / 600), 0);
  const part = (second - from) / (to - from);
  scroll_.scrollLeft = part * day.offsetWidth - middle();
  cursor.style.left = part * 100 + '%';
  cursor.hidden = false;
  cursor.dataset.at = second.toFixed(6);
  return true;
}

// Marks what has this SessionID or SpliceEventID; the table shows nothing else.
let place = 0;
function find(text) {
  text = text.trim();
  const own = e => text !== '' && (e.dataset.session === text || e.dataset.event === text);
  for (const label of document.querySelectorAll('.label')) label.classList.toggle('hit', own(label));
  const rows = [...document.querySelectorAll('#asrun tbody tr')], hits = rows.filter(row => own(row) && row.dataset.at);
  for (const row of rows) {
    row.classList.toggle('hit', own(row));
    row.classList.toggle('miss', text !== '' && !own(row));
  }
  $('found').textContent = text === '' ? '' : `${hits.length} found`;
  if (hits.length) goTo(Number(hits[place++ % hits.length].dataset.at));
}

const middle = () => scroll_.clientWidth / 2;
const entered = (id, act) => $(id).addEventListener('keydown', e => { if (e.key === 'Enter') act(e.target.value); });
$('in').onclick = () => set(zoom * 2, middle());
$('out').onclick = () => set(zoom / 2, middle());
$('all').onclick = () => { cursor.hidden = true; set(1, 0); };
$('print').onclick = () => window.print();
$('zone').onchange = e => setZone(e.target.value);
entered('at', text => { $('at').setCustomValidity(goTo(read(text)) ? '' : 'not within this day'); $('at').reportValidity(); });
entered('find', find);
$('find').addEventListener('input', () => { place = 0; if ($('find').value.trim() === '') find(''); });
scroll_.addEventListener('wheel', event => {
  if (!event.ctrlKey) return;
  event.preventDefault();
  set(zoom * (event.deltaY < 0 ? 1.25 : .8), event.clientX - scroll_.getBoundingClientRect().left);
}, { passive: false });
window.addEventListener('beforeprint', () => set(1, 0));

const own = Intl.DateTimeFormat().resolvedOptions().timeZone || 'UTC';
const zones = ['UTC', ...(Intl.supportedValuesOf ? Intl.supportedValuesOf('timeZone') : [])];
const asked = Object.fromEntries(location.hash.slice(1).split('&').map(word => word.split('=').map(decodeURIComponent)));
for (const name of new Set([...zones, own, day.dataset.zone].filter(Boolean))) $('zone').append(new Option(name, name));
// page.html#zoom=8&zone=Europe/Berlin&at=14:05&find=501
setZone(asked.zone || day.dataset.zone || own);
set(Number(asked.zoom) || 1, 0);
if (asked.at) goTo(read(asked.at));
if (asked.find) { $('find').value = asked.find; find(asked.find); }
