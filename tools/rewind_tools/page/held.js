// What a person can do with a held capability: release it, move it to a later time, and at an opaque vertex keep it
// beside the later one, or send from it.
import { button, field, input, labelled, made, onSubmit, select, timeOf, timeText, valuesOf } from "./base.js";
import { execute } from "./commands.js";
import { about, placeNumber, processors, say } from "./store.js";

// The form for each capability from which somebody may send, which keeps what is typed when the list is drawn again.
const sendForms = new Map();

// Releases a capability, or moves it to a later time, which is the next epoch unless another is typed.
function releaseForm(line, there, isOpaque) {
  const to = labelled(input(6, { value: [line.time[0] + 1, ...line.time.slice(1)].join(",") }), `the later time for the capability at ${there}`);
  const keep = labelled(Object.assign(made("input"), { type: "checkbox" }), `keep the capability at ${there} beside the later one`);
  const move = () => {
    const { time, fault } = timeOf(to.value);
    return fault ? say(`move: ${fault}`, true) : execute({ ...line, to: time, ...(keep.checked ? { keep: true } : {}) });
  };
  const release = labelled(button("release", () => execute(line)), `release the capability at ${there}`);
  return onSubmit(made("form", [release, button("move to", move), to, ...(isOpaque ? [field("and keep this one", keep)] : [])], "form"), move);
}

// The line of a send, or what is wrong with what is typed. It is a text, since a browser would round the values.
function sendLine(line, { port, values, at, dest }) {
  const given = valuesOf(values.value), when = at.value.trim() ? timeOf(at.value) : {};
  const fault = given.fault || when.fault;
  if (fault) return { fault: `send: ${fault}` };
  const more = { ...(when.time ? { at: when.time } : {}), ...(dest.selectedIndex > 0 ? { dest: dest.selectedIndex - 1 } : {}) };
  const start = JSON.stringify({ ...line, do: "send", port: port.selectedIndex, ...more });
  return { text: `${start.slice(0, -1)},"values":[${given.numbers.join(",")}]}` };
}

// Sends values on a port, at the capability's time unless a later one is typed, where their values send them or to
// one processor.
function sendForm(line, there, ports) {
  const ways = ["where the value sends it", ...processors().map((name) => `to ${name}`)];
  const controls = {
    values: labelled(input(8, { placeholder: "as 2 3" }), `values to send from ${there}`),
    port: select(`the port for what is sent from ${there}`, Array.from({ length: ports }, (_, it) => `port ${it}`)),
    at: labelled(input(6, { placeholder: line.time.join(",") }), `the time of what is sent from ${there}`),
    dest: select(`the processor that gets what is sent from ${there}`, ways),
  };
  const { values, port, at, dest } = controls, press = labelled(made("button", "send"), `send from the capability at ${there}`);
  const form = made("form", [press, values, "on", port, field("at", at), ...(about.processors > 1 ? [dest] : [])], "form");
  return onSubmit(form, async () => {
    const { text, fault } = sendLine(line, controls);
    if (fault) {
      say(fault, true);
      values.focus();
    } else if (await execute(text)) values.value = "";
  });
}

// The forms for one capability, by the line that would release it.
export function heldForms(line) {
  const there = `${line.vertex} ${timeText(line.time)} of processor ${line.p}`;
  const { ports } = about.places[placeNumber(line.vertex)];
  if (ports && !sendForms.has(there)) sendForms.set(there, sendForm(line, there, ports));
  return [releaseForm(line, there, ports !== undefined), ...(ports ? [sendForms.get(there)] : [])];
}
