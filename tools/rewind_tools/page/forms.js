// The forms of a live page: what is fed to an input, and the conditions that are looked for or break a run.
import { asked, inTurn } from "./asking.js";
import { button, by, field, GREATEST_COUNTER, input, labelled, made, numberOf, onSubmit, options, redrawn, select, valuesOf } from "./base.js";
import { execute, jump, refreshed } from "./commands.js";
import { ownLane } from "./known.js";
import { question, say, state, view } from "./store.js";

const MOST_TURNS = 1000, LISTED_TURNS = 20;

// ---- the feed of an input

const ENDS = ["next", "to", "stay", "close"];
const feedControls = {
  which: select("the input", []),
  values: labelled(input(20, { placeholder: "as 2 3" }), "values"),
  end: select("what its token does then", ["advance to the next epoch", "advance to epoch", "stay", "close"], 0, showFeed),
  to: labelled(input(6), "epoch"),
  press: made("button", "feed"),
  none: made("span", "every input is closed", "none"),
};

function feedLine() {
  const { which, values, end, to } = feedControls;
  const it = state.picture.inputs[which.selectedIndex], word = ENDS[end.selectedIndex];
  const given = valuesOf(values.value), epoch = word === "to" ? numberOf(to.value, GREATEST_COUNTER) : {};
  if (given.fault) return { fault: `feed: ${given.fault}` };
  if (epoch.fault) return { fault: `feed: the epoch: ${epoch.fault}` };
  const next = word === "to" ? `{"to":${epoch.number}}` : `"${word}"`;
  return { text: `{"do":"feed","p":${it.p},"vertex":${JSON.stringify(it.vertex)},"values":[${given.numbers.join(",")}],"next":${next}}` };
}

async function feed() {
  const { text, fault } = feedLine(), { values, to } = feedControls;
  if (fault) {
    say(fault, true);
    values.focus();
  } else if (await execute(text)) {
    values.value = to.value = "";
    showFeed();
  }
}

function showFeed() {
  const { picture: { inputs } } = state, { which, values, end, to, press, none } = feedControls;
  const texts = inputs.map((it) => `${it.vertex} of processor ${it.p} (epoch ${it.epoch})`);
  options(which, texts, Math.min(Math.max(0, which.selectedIndex), inputs.length - 1));
  for (const it of [which, values.parentElement, end, press]) it.hidden = !inputs.length;
  none.hidden = Boolean(inputs.length);
  to.hidden = !inputs.length || ENDS[end.selectedIndex] !== "to";
  if (inputs.length && !to.value) to.value = inputs[which.selectedIndex].epoch + 2;
}

// ---- conditions

const whenControl = select("the condition", ["the processor has passed the point", "the point is finished in truth"]);
const whenText = labelled(input(34, { placeholder: "as count out 0 1 and not passed 0 out 0" }), "a condition, as at the prompt");

// The condition that is typed, or that is chosen; undefined, with a word to the person, if there is none.
async function conditionOf() {
  const text = whenText.value.trim(), { time } = state.chosen;
  if (text) {
    const told = await inTurn(() => asked("condition", { text }));
    if (told && told.error) say(told.error, true);
    return told && told.when;
  }
  if (!question() || !time) {
    say("which point? click a vertex, an edge or a number of a view first", true);
    return undefined;
  }
  const { q, at } = question();
  return whenControl.selectedIndex ? { finished: { at, time } } : { passed: { q, at, time } };
}

async function withCondition(act) {
  const when = await conditionOf();
  if (when) await act(when);
}

function turnWords({ at_lo: atLo, turns, to }) {
  if (atLo === null) return "no position was looked at";
  const start = atLo ? "holds at the start" : "does not hold at the start";
  const rest = to < state.picture.kept && turns.length < MOST_TURNS ? `; positions up to ${to} were looked at` : "";
  if (!turns.length) return `${start}, and that stays so${rest}`;
  const others = turns.length > LISTED_TURNS ? `, ... (${turns.length < MOST_TURNS ? "" : "at least "}${turns.length} in all)` : "";
  return `${start}, and changes at ${turns.slice(0, LISTED_TURNS).join(", ")}${others}${rest}`;
}

function showTurns() {
  const told = state.sight.when && ownLane(), turns = (told && told.turns) || [];
  const said = told ? told.error || `${told.when}: ${turnWords(told)}` : "";
  const buttons = turns.slice(0, LISTED_TURNS).map((at) => labelled(button(`${at}`, () => jump(at)), `go to position ${at}`));
  redrawn(by("turns"), made("p", said), ...buttons);
}

by("feed").append(feedControls.which, field("values", feedControls.values), feedControls.end, feedControls.to, feedControls.press, feedControls.none);
onSubmit(by("feed"), feed);
by("when").append(
  whenText, made("span", "or of the processor and point that are asked about:", "soft"), whenControl,
  button("show where it holds", () => withCondition((when) => refreshed({ when }))),
  button("break when it holds", () => withCondition((when) => execute({ do: "break", when }))),
);
view(["picture"], showFeed);
view(["picture", "over", "sight"], showTurns);
