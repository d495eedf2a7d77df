// Files that are loaded into an editor and saved from it: UTF-8 alone, and with the line breaks that they had.

const BREAKS = ["\r\n", "\n", "\r"];
const MARK = "\ufeff";

// The break of most lines of a text.
function breakOf(text) {
  const found = text.match(/\r\n|\n|\r/g) ?? [];
  const counts = BREAKS.map((one) => found.filter((other) => other === one).length);
  const most = Math.max(...counts);
  return { line: most ? BREAKS[counts.indexOf(most)] : "\n", isMixed: most < found.length };
}

// What a file has: its text, the form that it is saved in again, and what to say of it. Without a text it can't be read.
export async function read(file) {
  let text;
  try {
    text = new TextDecoder("utf-8", { fatal: true, ignoreBOM: true }).decode(await file.arrayBuffer());
  } catch {
    return { told: `${file.name} isn't UTF-8, so it wasn't loaded: save it as UTF-8 first` };
  }
  const hasMark = text.startsWith(MARK);
  const { line, isMixed } = breakOf(text);
  const told = isMixed ? `${file.name} has line breaks of more than one kind: it is saved with those that most lines have` : "";
  return { text: hasMark ? text.slice(1) : text, form: { name: file.name, line, hasMark }, told };
}

export function save(editor, { name, line, hasMark }) {
  const anchor = document.createElement("a");
  const text = (hasMark ? MARK : "") + editor.code.getValue(line);
  anchor.href = URL.createObjectURL(new Blob([text], { type: "text/plain" }));
  anchor.download = name;
  anchor.click();
  URL.revokeObjectURL(anchor.href);
}
