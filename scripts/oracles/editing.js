
"use strict";
(() => {
  const at = id => document.getElementById(id);
  const encoded = path => path.split("/").map(encodeURIComponent).join("/");
  for (const button of document.querySelectorAll("main button")) button.disabled = false;
  if (at("new")) {
    at("new").addEventListener("submit", event => {
      event.preventDefault();
      location.assign("/edit/" + encoded(at("path").value));
    });
    return;
  }
  const form = at("edit"), text = at("text"), groups = at("groups"), other = at("other");
  let path = form.dataset.path, tag = form.dataset.tag;
  let saved = [text.defaultValue, groups.defaultValue], there = ["", ""];
  const say = words => { at("said").textContent = words; };
  const changed = () => text.value !== saved[0] || groups.value !== saved[1];
  const strong = reply => (reply.headers.get("ETag") || "").replace(/^W\//, "");
  const ask = (url, how) => fetch(location.origin + url, {cache: "no-store", ...how});
  const send = (method, url, body) => ask(url, {
    method, body, redirect: "error", headers: tag ? {"If-Match": tag} : {"If-None-Match": "*"}
  });
  const why = async reply => {
    say("Not done: " + (await reply.text() || reply.status).trim().replace(/^\d+ /, "").replace("\n", ": ") + ". What you typed is kept.");
  };
  const differ = async () => {
    const reply = await ask("/source/" + path);
    if (reply.ok) {
      there = [new URL(reply.url).pathname.slice("/source/".length), strong(reply)];
      at("theirs").value = await reply.text();
      at("their-groups").textContent = reply.headers.get("Docs-Groups");
      say("Not done: the page " + (reply.redirected ? "stands at " + decodeURIComponent(there[0]) : "is another one")
        + " now. What you typed is kept.");
    } else if (reply.status === 404) {
      there = [path, ""];
      at("theirs").value = at("their-groups").textContent = "";
      say("Not done: the page is gone. What you typed is kept.");
    } else {
      return why(reply);
    }
    other.hidden = false;
  };
  const done = words => {
    saved = [text.value, groups.value];
    other.hidden = true;
    at("stands").hidden = false;
    say(words);
  };
  const guarded = work => async event => {
    event.preventDefault();
    say("...");
    try {
      await work();
    } catch (fault) {
      say("Not done: no answer came. What you typed is kept.");
    }
  };
  const save = async () => {
    const now = [text.value, groups.value];
    if (new Blob([now[0]]).size > 1048576) return say("Not done: the text has more than 1048576 bytes.");
    const names = encodeURIComponent(now[1].replace(/\s/g, ""));
    const reply = await send("PUT", "/source/" + path + "?groups=" + names, now[0]);
    if (reply.status === 412) return differ();
    if (!reply.ok) return why(reply);
    tag = strong(reply);
    done("Saved.");
    saved = now;
  };
  form.addEventListener("submit", guarded(save));
  at("keep").addEventListener("click", guarded(() => {
    [path, tag] = there;
    return save();
  }));
  at("take").addEventListener("click", guarded(async () => {
    [path, tag] = there;
    text.value = at("theirs").value;
    groups.value = at("their-groups").textContent;
    done("This is the page as it stands.");
  }));
  at("show").addEventListener("click", guarded(async () => {
    const reply = await ask("/preview/" + path, {
      method: "POST", body: text.value, redirect: "error", headers: {"Content-Type": "text/markdown; charset=utf-8"}
    });
    if (!reply.ok) return why(reply);
    at("shown").srcdoc = await reply.text();
    at("shown").hidden = false;
    say("");
  }));
  at("move").addEventListener("submit", guarded(async () => {
    if (changed()) return say("Save first.");
    const to = at("to").value;
    const reply = await send("PUT", "/move/" + path + "?to=" + encodeURIComponent(to));
    if (reply.status === 412) return differ();
    if (!reply.ok) return why(reply);
    location.assign("/edit/" + encoded(to));
  }));
  at("remove").addEventListener("submit", guarded(async () => {
    if (!confirm("Delete this page, with its aliases?")) return say("");
    const reply = await send("DELETE", "/source/" + path);
    if (reply.status === 412) return differ();
    if (!reply.ok) return why(reply);
    saved = [text.value, groups.value];
    location.assign("/contents");
  }));
  addEventListener("pageshow", event => { if (!event.persisted) form.reset(); });
  addEventListener("beforeunload", event => { if (changed()) event.preventDefault(); });
})();
