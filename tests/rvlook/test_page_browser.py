"""The page in a headless Chromium: script errors, counts, registers, keys, search, pointer and filters, and a page of a million steps. Requires
chromium, chromedriver and python3-selenium."""
import re
import shutil

import pytest
from support.limits import HANG, wait_until
from support.page_data import data_of

from conftest import EXAMPLES, input_of

selenium = pytest.importorskip("selenium", reason="python3-selenium is not installed")
pytest.importorskip("jinja2", reason="python3-jinja2 is not installed")
pytestmark = pytest.mark.skipif(not (shutil.which("chromium") and shutil.which("chromedriver")), reason="chromium or chromedriver is not installed")
TIMER = EXAMPLES / "enclaves" / "timer"
STEPS = (0, 1, 21, 30, 60, 100, 390, 420)  # at which the registers are compared
WIDTHS = (1600, 390)
CHANGING = ("timer", "setreg", "poke")  # commands of the script of TIMER that change the state
# A page of a million steps has at most these bytes. The browser takes at most these seconds of processor time to open it, and these milliseconds to
# show another step. Both are more than ten times what it takes now.
MOST_BYTES, MOST_SECONDS, MOST_MILLISECONDS = 10_000_000, 10, 30
MILLION = "37110080\n23201100\n93801000\n83210100\n13f2f00f\nb3024100\n23801210\ne39400fe\n"  # a loop that stores and loads
SMALL = {"two_harts": (input_of(EXAMPLES / "enclaves" / "two_harts"), "--monitor", "--harts", "2"), "pmp": (EXAMPLES / "programs" / "pmp" / "stdin",),
         "outside": ("--\nstep 3\n",), "none": ("1300\n", "--kind", "raw", "--steps", "0")}
REGISTERS = "return [...document.querySelectorAll('#registers .grid > span')].map(it => it.lastChild.textContent)"
HOVER = """
    const chart = document.getElementById('chart'), place = chart.getBoundingClientRect(), texts = [];
    for (let y = 0; y < place.height; y += 3)
        for (let x = place.width * 0.4; x < place.width * 0.6; x += 3) {
            chart.dispatchEvent(new PointerEvent('pointermove', {clientX: place.left + x, clientY: place.top + y}));
            texts.push(document.getElementById('hover').textContent);
        }
    return texts"""
SHOWN = 30
SHOW = """for (const first of [10, run.steps / 2 | 0, run.steps - 20])
    for (let at = 0; at < %d; at++)
        show(first + at);""" % (SHOWN // 3)


class Page:
    """A page in a browser."""

    def __init__(self, driver, path):
        self.driver, self.data = driver, data_of(path.read_text(encoding="utf-8"))
        driver.get(path.as_uri())
        self.wait()

    def wait(self):
        """Waits until the page shows a step: its data are unpacked meanwhile."""
        wait_until(lambda: self.text("where"))

    def text(self, name):
        return self.driver.find_element("id", name).text

    def run(self, script, *arguments):
        return self.driver.execute_script(script, *arguments)

    def type(self, keys):
        self.driver.find_element("tag name", "body").send_keys(keys)

    def check_counts(self):
        start = "%d events, %d rows, %d steps, %d points" % (len(self.data["events"]), *map(self.data.get, ("rows", "steps", "points")))
        assert self.text("counts").replace(",", "").startswith(start.replace(",", ""))

    def check_errors(self):
        assert [it["message"] for it in self.driver.get_log("browser") if it["level"] == "SEVERE"] == []


@pytest.fixture(scope="module")
def driver():
    from selenium import webdriver
    options = webdriver.ChromeOptions()
    for word in ("--headless=new", "--no-sandbox", "--disable-gpu", "--hide-scrollbars", "--window-size=1600,1000"):
        options.add_argument(word)
    options.set_capability("goog:loggingPrefs", {"browser": "ALL"})
    it = webdriver.Chrome(options=options)
    it.command_executor.set_timeout(HANG)
    it.set_page_load_timeout(HANG)
    it.set_script_timeout(HANG)
    it.execute_cdp_cmd("Performance.enable", {})
    yield it
    it.quit()


def written(rvlook, folder, *words):
    """Writes the page of an image."""
    done = rvlook("page", *words)
    assert (done.returncode, done.stderr) == (0, "")
    path = folder / "page.html"
    path.write_text(done.stdout, encoding="utf-8")
    return path


@pytest.fixture(scope="module")
def timer(rvlook, tmp_path_factory):
    return written(rvlook, tmp_path_factory.mktemp("page"), input_of(TIMER), "--monitor", "--symbols", TIMER / "symbols")


@pytest.fixture(params=WIDTHS)
def page(request, driver, timer):
    """The page of an example with a timer, in windows of two widths."""
    metrics = {"width": request.param, "height": 1000, "deviceScaleFactor": 1, "mobile": request.param < 600}
    driver.execute_cdp_cmd("Emulation.setDeviceMetricsOverride", metrics)
    it = Page(driver, timer)
    yield it
    it.check_errors()
    driver.execute_cdp_cmd("Emulation.clearDeviceMetricsOverride", {})


def registers_at(replies, commands):
    """The values of the registers at STEPS, as the bench replies them."""
    lines, script = {step: [it["line"] for it in commands if it["step"] == step] for step in range(STEPS[-1])}, ["regs"]
    for step in range(1, STEPS[-1] + 1):
        changing = [it for it in lines[step - 1] if it.split()[0] in CHANGING]
        script += changing + ["step 1"] + (["regs"] if step in STEPS else [])
    found = [it.split("=")[1] for it in replies(input_of(TIMER), ("--monitor",), script) if re.match(r"x\d+=", it)]
    return {step: found[at * 32:at * 32 + 32] for at, step in enumerate(STEPS)}


def test_counts_are_shown_and_the_window_is_wide_enough(page):
    page.check_counts()
    assert not page.run("return document.documentElement.scrollWidth > window.innerWidth")


def test_registers_are_those_of_the_bench(page, replies):
    wanted = registers_at(replies, page.data["commands"])
    for step in STEPS:
        page.run("show(arguments[0])", step)
        assert page.run(REGISTERS) == wanted[step], "step %d" % step


def test_step_is_kept_in_the_address(page):
    page.run("location.hash = '60'")
    page.driver.refresh()
    page.wait()
    assert page.text("where").startswith("Step 60:")
    page.run("show(61)")
    assert wait_until(lambda: page.driver.current_url.endswith("#61"))


def test_keys_and_clicks_go_to_steps(page):
    event = page.data["events"][1]["step"]
    page.run("show(0)")
    page.type("n")
    assert page.text("where").startswith("Step %d:" % event)
    page.type("\ue014")  # the right arrow
    assert page.text("where").startswith("Step %d:" % (event + 1))
    chart = page.driver.find_element("id", "chart")
    page.run("arguments[0].scrollIntoView({block: 'center'})", chart)
    chart.click()
    assert 0.2 < int(page.driver.find_element("id", "number").get_property("value")) / page.data["steps"] < 0.8


@pytest.mark.parametrize("text", ["window_base", "80030000"])
def test_search_goes_to_an_access(page, text):
    page.run("document.getElementById('find').value = arguments[0]; show(0)", text)
    page.run("document.getElementById('find').dispatchEvent(new KeyboardEvent('keydown', {key: 'Enter'}))")
    assert "80030000" in page.text("did")


def test_memory_is_zoomed_and_dragged(page):
    from selenium.webdriver.common.action_chains import ActionChains
    chart = page.driver.find_element("id", "chart")
    page.run("document.getElementById('find').value = '80030000'; show(0)")
    page.run("document.getElementById('find').dispatchEvent(new KeyboardEvent('keydown', {key: 'Enter'}))")
    page.run("arguments[0].scrollIntoView({block: 'center'})", chart)
    page.type("v")
    assert 0.4 < page.run("return view.bottom - view.top") < 0.6
    page.type("+")
    before = page.run("return view.from")
    ActionChains(page.driver).click_and_hold(chart).move_by_offset(-40, 0).release().perform()
    assert wait_until(lambda: page.run("return view.from") > before)


def test_pointer_names_a_store(page):
    page.run("arguments[0].scrollIntoView({block: 'center'})", page.driver.find_element("id", "chart"))
    found = page.run(HOVER)
    assert any(re.search(r"writes 4 bytes at 80030000 window_base: [0-9a-f]{8}", it) for it in found), sorted(set(found))[:3]


def test_filter_takes_marks_away(page):
    before = page.text("counts")
    page.driver.find_element("css selector", "#filters input").click()
    assert page.text("counts") != before


@pytest.mark.parametrize("name", SMALL)
def test_page_shows_each_step_without_an_error(rvlook, driver, tmp_path, name):
    image, *words = SMALL[name]
    if isinstance(image, str):
        (tmp_path / "image").write_text(image)
        image = tmp_path / "image"
    page = Page(driver, written(rvlook, tmp_path, image, *words))
    page.check_counts()
    page.run("for (let step = 0; step <= run.steps; step++) show(step)")
    page.check_errors()


def spent(driver, name):
    """Returns the processor time of the page in seconds: `ThreadTime` of its scripts and their layout, `ProcessTime` of all threads."""
    return next(it["value"] for it in driver.execute_cdp_cmd("Performance.getMetrics", {})["metrics"] if it["name"] == name)


def test_page_of_a_million_steps_is_fast(rvlook, driver, tmp_path):
    (tmp_path / "loop").write_text(MILLION)
    path = written(rvlook, tmp_path, tmp_path / "loop", "--kind", "raw")
    assert path.stat().st_size < MOST_BYTES
    before = spent(driver, "ProcessTime")
    driver.get(path.as_uri())
    assert wait_until(lambda: driver.find_element("id", "where").text)
    assert driver.execute_script("return run.steps") >= 1000000
    assert 0 < spent(driver, "ProcessTime") - before < MOST_SECONDS
    before = spent(driver, "ThreadTime")
    driver.execute_script(SHOW)
    assert 0 < spent(driver, "ThreadTime") - before < SHOWN * MOST_MILLISECONDS / 1000


@pytest.fixture(scope="module")
def calls(driver, rvlook, built, tmp_path_factory):
    """The page of a program with calls, variables and a console."""
    elf = built("console")
    done = rvlook("page", "--monitor", elf)
    path = tmp_path_factory.mktemp("calls") / "page.html"
    path.write_text(done.stdout, encoding="utf-8")
    driver.set_window_size(1366, 768)
    yield Page(driver, path)
    driver.set_window_size(WIDTHS[0], 1000)


def step_in(page, function):
    """Returns a step of a function after its first ten."""
    sites = [at for at, site in enumerate(page.data["sites"]) if site["function"] == function]
    return page.run("return Array.from(run.site).findIndex((site, at) => at > 10 && arguments[0].includes(site)) + 6", sites)


def test_call_stack_and_variables_of_a_step(calls):
    at = step_in(calls, "print_number")
    calls.run("show(arguments[0])", at)
    stack = calls.text("stack").split("\n")
    assert [line.split()[1] for line in stack if line.startswith("#")] == ["print_number", "main", "_start"]
    assert any(line.startswith("number 00000000 0 ") for line in stack), stack
    calls.run("document.querySelectorAll('#stack .frame')[0].click()")
    assert calls.text("stack").split("\n")[1].startswith("#0 main")


def test_returned_calls_leave_the_stack(calls):
    last = calls.run("return run.steps")
    calls.run("show(arguments[0])", last)
    assert [line.split()[1] for line in calls.text("stack").split("\n") if line.startswith("#")] == ["main", "_start"]


def test_console_line_is_shown_at_its_step(calls):
    line = calls.data["consoles"][1]
    calls.run("show(arguments[0])", line["step"])
    assert "host console: red: ^[[31m numbers: 0 4294967295 0a454e43" in calls.text("did")


def test_steps_source_and_find_box_are_above_the_fold(calls):
    calls.run("show(arguments[0])", step_in(calls, "print_number"))
    for name in ("steps", "source", "find", "stack"):
        place = calls.run("const it = document.getElementById(arguments[0]).getBoundingClientRect(); return [it.top, it.bottom, it.right]", name)
        limit = calls.run("return [window.innerHeight, window.innerWidth]")
        assert (place[1] <= limit[0] or name == "stack" and place[0] < limit[0]) and place[2] <= limit[1], (name, place, limit)
    calls.check_errors()
