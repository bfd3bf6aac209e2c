"""tools/fbr-lsp in a real client: Neovim without a screen, with editors/nvim as a user would have it."""
import json
import os
import shutil
import subprocess
import unittest

import parts
from lsp_parts import PATIENCE, plant

# What is done in Neovim; each step waits until it has come, and `said` is written at the end whatever happens.
SCRIPT = """
local said = {}
local function wait(what, condition)
  if not vim.wait(WAIT, condition, 20) then error("nothing came: " .. what) end
end
local function shown()
  local found = {}
  for _, it in ipairs(vim.diagnostic.get(0)) do
    table.insert(found, { line = it.lnum + 1, column = it.col + 1, severity = it.severity, code = it.code, message = it.message })
  end
  return found
end
local function go(words, skip)
  vim.fn.cursor(1, 1)
  local line = vim.fn.search("\\\\V" .. words, "c")
  if line == 0 then error("there is no " .. words) end
  vim.fn.cursor(line, vim.fn.col(".") + skip)
end
local function float()
  for _, it in ipairs(vim.api.nvim_list_wins()) do
    if vim.api.nvim_win_get_config(it).relative ~= "" then return it end
  end
end
local done, why = pcall(function()
  said.version = tostring(vim.version().major) .. "." .. tostring(vim.version().minor)
  wait("a fault", function() return #vim.diagnostic.get(0) > 0 end)
  said.filetype, said.syntax, said.wrong = vim.bo.filetype, vim.b.current_syntax, shown()
  STEPS
end)
said.why = not done and tostring(why) or nil
vim.fn.writefile({ vim.fn.json_encode(said) }, SAID)
vim.cmd("qa!")
"""


@unittest.skipUnless(shutil.which("nvim"), "neovim is missing")
class Neovim(parts.Folder):
    def said(self, text, steps, init, settings):
        """What Neovim says of a text after some steps in Lua, with a file of settings as docs/EDITORS.md has it."""
        (self.folder / "nvim").mkdir()
        self.put(f"nvim/{init}", settings.replace("/path/to/repository", str(parts.TOP)))
        self.put("plant.fb", text)
        said = self.folder / "said.json"
        script = SCRIPT.replace("WAIT", str(1000 * PATIENCE)).replace("SAID", json.dumps(str(said))).replace("STEPS", steps)
        self.put("steps.lua", script)
        home = {f"XDG_{it}_HOME": str(self.folder) for it in ("CONFIG", "DATA", "CACHE", "STATE")}
        words = ["nvim", "--headless", "-n", "-i", "NONE", "plant.fb", "-c", "luafile steps.lua"]
        env = {**os.environ, **home, "FBR": parts.program(), "HOME": str(self.folder)}
        done = subprocess.run(words, cwd=self.folder, env=env, capture_output=True, text=True, timeout=5 * PATIENCE)
        self.assertTrue(said.exists(), done.stderr)
        found = json.loads(said.read_text(encoding="utf-8"))
        self.assertIsNone(found.get("why"), found)
        return found

    def test_fault_and_mended(self):
        """A fault is shown at its line by one server, and none is after it was mended; `gd` goes to a declaration, and `K` shows its numbers."""
        right = (parts.TOP / "examples/wrong/division/mended.fb").read_text(encoding="utf-8")
        wrong = right.replace("(* ", "(* ä 🙂 ", 1).replace("Display.REQ;", "(* 🙂 *) Disply.REQ;")
        self.assertEqual(wrong.count("Disply"), 1)
        found = self.said(
            wrong,
            """
            go("Disply", 0)
            said.line, said.column = vim.fn.line("."), vim.fn.col(".")
            vim.cmd("normal! ciwDisplay")
            wait("that it was mended", function() return #vim.diagnostic.get(0) == 0 end)
            said.mended = shown()
            vim.cmd("normal! ciwDisp")
            wait("a new fault", function() return #vim.diagnostic.get(0) > 0 end)
            said.again = shown()
            go("Rate.Reckon;", 5)
            vim.cmd("normal gd")
            wait("the definition", function() return vim.fn.getline(".") == "  Reckon WITH Bottles, Seconds;" end)
            vim.cmd("normal K")
            wait("the hover", float)
            said.hover = vim.api.nvim_buf_get_lines(vim.api.nvim_win_get_buf(float()), 0, -1, false)
            said.servers = #(vim.lsp.get_clients or vim.lsp.get_active_clients)()
            """,
            "init.vim",
            line_of_page("set runtimepath"),
        )
        (fault,) = found["wrong"]
        self.assertEqual((found["filetype"], found["syntax"]), ("fb", "fb"))
        self.assertEqual((fault["line"], fault["column"]), (found["line"], found["column"]))
        self.assertEqual(fault["line"], wrong[: wrong.index("Disply")].count("\n") + 1)
        self.assertEqual(fault["code"], f"10 {wrong.encode().index(b'Disply')}")
        self.assertIn("did you mean DISPLAY?", fault["message"])
        self.assertEqual(found["mended"], [])
        self.assertEqual([it["line"] for it in found["again"]], [found["line"]])
        self.assertEqual(found["servers"], 1)
        hover = "\n".join(found["hover"])
        self.assertIn("event input of RATE", hover)
        self.assertIn("When the text was last accepted:", hover)
        self.assertIn("LINE.REPORT.RATE.RECKON: at most 7 steps, 1 place", hover)

    def test_hover_definition_fix(self):
        """With a server that is named, and without keys: a fix mends the text, hover shows numbers, names are offered, and a definition is found."""
        text, server = plant("motor_starter"), self.folder / "server"
        server.symlink_to(parts.TOOLS / "fbr-lsp")
        settings = line_of_page("vim.opt.runtimepath") + line_of_page("require(")
        settings = settings.replace("/path/to/fbr-lsp", str(server)).replace("/path/to/fbr", parts.program(), 1)
        found = self.said(
            text.replace("TO Starter.Forward;", "TO Starter.Forwrad;"),
            """
            vim.ui.select = function(items, _, choose) said.titles = #items; choose(items[1], 1) end
            go("Forwrad", 2)
            vim.lsp.buf.code_action()
            wait("the fix", function()
              local left = vim.diagnostic.get(0, { severity = vim.diagnostic.severity.ERROR })
              return vim.fn.search("Forwrad", "nw") == 0 and #left == 0 and #vim.diagnostic.get(0) > 0
            end)
            go("Starter.Stop;", 9)
            vim.lsp.buf.hover()
            wait("the hover", float)
            said.hover = vim.api.nvim_buf_get_lines(vim.api.nvim_win_get_buf(float()), 0, -1, false)
            vim.api.nvim_win_close(float(), true)
            go("Starter.Stop;", 9)
            local before = vim.fn.line(".")
            vim.lsp.buf.definition()
            wait("the definition", function() return vim.fn.line(".") ~= before end)
            said.definition = { vim.fn.line("."), vim.fn.expand("<cword>") }
            go("Starter.Stop;", 8)
            local names
            vim.lsp.buf_request(0, "textDocument/completion", vim.lsp.util.make_position_params(0, "utf-16"), function(_, result) names = result end)
            wait("names", function() return names ~= nil end)
            said.names = vim.tbl_map(function(it) return it.label end, names)
            said.omnifunc, said.hover_key = vim.bo.omnifunc, vim.fn.maparg("K", "n")
            said.cmd = (vim.lsp.get_clients or vim.lsp.get_active_clients)()[1].config.cmd
            said.text = vim.api.nvim_buf_get_lines(0, 0, -1, false)
            """,
            "init.lua",
            settings,
        )
        self.assertEqual("\n".join(found["text"]) + "\n", text)
        self.assertIn("CABINET.DRIVE.STARTER.STOP: at most 5 steps, 1 place", "\n".join(found["hover"]))
        self.assertEqual(found["definition"], [text[: text.index("Stop;")].count("\n") + 1, "Stop"])
        self.assertEqual(found["names"], ["Forward", "Reverse", "Stop", "Reset", "Contacts", "Overload"])
        self.assertEqual(found["cmd"], [str(server), "--fbr", parts.program()])
        self.assertEqual((found["omnifunc"], found["hover_key"]), ("v:lua.vim.lsp.omnifunc", ""))


def line_of_page(begin):
    """The line of docs/EDITORS.md, of those that show what to write, that begins so."""
    page = (parts.TOP / "docs/EDITORS.md").read_text(encoding="utf-8")
    (line,) = (it for it in page.splitlines() if it.startswith("    " + begin))
    return line.strip() + "\n"


if __name__ == "__main__":
    unittest.main()
