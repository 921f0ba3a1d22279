// What tests/page/page_looks.py looks for in the page as a browser draws it: each check answers what it finds, in words.
const shown = (selector) => Array.from(document.querySelectorAll(selector)).filter((each) => each.checkVisibility());
const holds = (element) => Array.from(element.childNodes).some((each) => each.nodeType === 3 && each.data.trim());

// A colour over another, how light it is, what is below an element, and how far a colour stands out from that, as WCAG 2.2 has it.
const canvas = document.createElement('canvas').getContext('2d', { willReadFrequently: true });
const kept = (given, key, make) => given.get(key) ?? given.set(key, make()).get(key);
const [blends, papers] = [new Map(), new Map()];
const over = (color, below) => kept(blends, `${color} on ${below}`, () => {
    for (const each of [`rgb(${below.join(' ')})`, color]) {
        canvas.fillStyle = each;
        canvas.fillRect(0, 0, 1, 1);
    }
    return Array.from(canvas.getImageData(0, 0, 1, 1).data.slice(0, 3));
});
const light = (color) => {
    const [red, green, blue] = color.map((each) => (each / 255 <= 0.04045 ? each / 255 / 12.92 : ((each / 255 + 0.055) / 1.055) ** 2.4));
    return 0.2126 * red + 0.7152 * green + 0.0722 * blue;
};
const paper = (element) => kept(papers, element, () =>
    over(getComputedStyle(element).backgroundColor, element.parentElement ? paper(element.parentElement) : [255, 255, 255]));
const ratio = (color, below) => {
    const [one, other] = [light(below), light(over(color, below))].sort((first, second) => second - first);
    return (one + 0.05) / (other + 0.05);
};

const checks = {
    // Words in two lines. A name of many parts, or digits of many bytes, have to break somewhere.
    broken: () => shown('body :not(script, style)').flatMap((each) => Array.from(each.childNodes)).flatMap((node) =>
        Array.from(node.nodeType === 3 ? node.data.matchAll(/[^\s-]+/g) : []).filter(({ index, 0: word }) => {
            const range = document.createRange();
            range.setStart(node, index);
            range.setEnd(node, index + word.length);
            return word.length <= 24 && new Set(Array.from(range.getClientRects(), (each) => Math.round(each.top))).size > 1;
        })),
    // Texts that stand out from what is below them by less than 4.5 to 1 (1.4.3).
    faint: () => shown('body, body *').filter((each) => holds(each) && !each.matches('script, style, option, :disabled')
        && ratio(getComputedStyle(each).color, paper(each)) < 4.5).map((each) => each.textContent.slice(0, 40)),
    // Fields whose edge stands out from what is around them by less than 3 to 1 (1.4.11), or whose placeholder by less than 4.5 to 1.
    pale: () => shown('input:not([type=checkbox]), select, textarea').filter((each) => {
        const edge = getComputedStyle(each).borderTopColor;
        const hint = getComputedStyle(each, '::placeholder');
        return ratio(edge, paper(each)) < 3 || ratio(edge, paper(each.parentElement)) < 3
            || (each.placeholder && (ratio(hint.color, paper(each)) < 4.5 || hint.opacity !== '1'));
    }).map((each) => each.id),
    // Fields that stand out of the window, and selects whose word doesn't fit.
    clipped: () => shown('select, input, textarea').filter((each) => {
        const style = getComputedStyle(each);
        canvas.font = style.font;
        const inside = each.clientWidth - parseFloat(style.paddingLeft) - parseFloat(style.paddingRight);
        const box = each.getBoundingClientRect();
        const word = each.matches('#kind, #sender, #reason') ? canvas.measureText(each.options[0].text).width : 0;
        return box.left < 0 || box.right > innerWidth + 0.5 || word > inside;
    }).map((each) => each.id),
    // Parts of the page that end below where the footer begins.
    covered: () => shown('nav, .tools, .split').filter((each) => each.getBoundingClientRect().bottom
        > document.querySelector('footer').getBoundingClientRect().top + 1).map((each) => each.className || each.tagName),
    // That the page is wider than the window.
    wide: () => [document.documentElement.scrollWidth - innerWidth].filter((each) => each > 0),
    // What is to be clicked.
    clicked: () => shown('button, nav a, select, input, #hint').map((each) => each.id || each.textContent),
};
