// Faults of a page, put in between it and its canvas by the recorder: each must be found by the comparison. painted_faults.py says what
// each is. The name of the one that is put in stands in the place of {fault}.
(() => {
    'use strict';
    const { bend } = window.recorder;
    const [JOINED, JOINED_MATCHES, MATCHES] = [['#9aa0a8', '#5d646e'], ['#a982bb', '#8c589d'], ['#8e3caa', '#c285d6']];

    // What came before, for each that comes.
    function before(chosen = () => true) {
        let last = null;
        return (what) => {
            if (!chosen(what)) return what;
            const answer = last === null ? what : last;
            last = what;
            return answer;
        };
    }

    const faults = {
        edges_off() {
            bend.rectangle = ([left, ...others]) => [[left + 2, ...others]];
        },
        widths_off() {
            bend.rectangle = ([left, top, width, height]) => [[left, top, width < 3 ? width : width + 2, height]];
        },
        rectangles_of_no_box() {
            bend.rectangle = (sides) => {
                const [left, top, width, height] = sides;
                return width < 20 ? [sides] : [sides, [left + width / 2, top, width / 2 - 8, height]];
            };
        },
        labels_of_the_box_before() {
            bend.text = before();
        },
        labels_cut_at_their_end() {
            bend.text = (text) => {
                const data = JSON.parse(document.getElementById('data').textContent);
                const whole = data.names.find((name) => name.endsWith(text) && name.length > text.length + 3);
                return whole ? `${whole.slice(0, text.length - 1)}\u2026` : text;
            };
        },
        labels_shorter_than_they_could_be() {
            bend.text = (text) => text.replace(/^.*\.(?=\w+$)/, '');
        },
        changes_turned() {
            bend.text = (text) => text.replace(/[+\u2212]/, (sign) => (sign === '+' ? '\u2212' : '+'));
        },
        shares_as_weights() {
            bend.fragment = (fragment) => fragment.replace('&share=1', '');
        },
        numbers_beside_their_ticks() {
            bend.saved = (text) => text.replace(/(<text x=")([\d.]+)(?=" y="32")/g, (whole, begin, left) => begin + (Number(left) + 9));
        },
        parts_begin_elsewhere() {
            bend.fragment = (fragment) => fragment.replace(/from=(\d+)&to=(\d+)/, (part, from, to) => `from=${(Number(from) + Number(to)) / 2}&to=${to}`);
        },
        heavy_boxes_in_their_order() {
            bend.fragment = (fragment) => fragment.replace('&heavy=1', '');
        },
        sources_one_after_another() {
            bend.fragment = (fragment) => fragment.replace('&beside=1', '');
        },
        sources_with_the_next_name() {
            bend.text = (text) => text.replace(/^part-(\d)/, (word, number) => `part-${Number(number) + 1}`);
        },
        saved_with_other_sources() {
            bend.saved = (text) => text.replace('</g>\n</svg>', '<rect x="0" y="34" width="90" height="17" fill="#9aa0a8"/></g>\n</svg>');
        },
        names_as_packages() {
            bend.fragment = (fragment) => fragment.replace('&colours=name', '');
        },
        callers_of_another() {
            bend.fragment = (fragment) => fragment.replace(/callers=([^&]*)/, (word, name) => {
                const { names } = JSON.parse(document.getElementById('data').textContent);
                return `callers=${encodeURIComponent(names.find((each) => each !== decodeURIComponent(name) && each !== names[0]))}`;
            });
        },
        callers_below_callees() {
            bend.fragment = (fragment) => (fragment.includes('callers=') ? fragment.replace('drawing=0', 'drawing=0&root=below') : fragment);
        },
        joined_as_the_first() {
            let plain = '#000000';
            bend.fill = (fill) => {
                if (JOINED.includes(fill)) return plain;
                plain = fill;
                return fill;
            };
        },
        joined_matches_as_joined() {
            bend.fill = (fill) => JOINED[JOINED_MATCHES.indexOf(fill)] ?? fill;
        },
        colours_of_the_box_before() {
            bend.fill = before();
        },
        matches_as_the_others() {
            let dim = '#000000';
            bend.fill = (fill) => {
                if (MATCHES.includes(fill)) return dim;
                dim = fill;
                return fill;
            };
        },
        a_row_left_out() {
            bend.rectangle = (sides) => (Math.floor(sides[1] / 18) === 2 ? [] : [sides]);
        },
        narrow_ones_left_out() {
            bend.rectangle = (sides) => (sides[2] < 1 ? [] : [sides]);
        },
        labels_left_out() {
            let count = 0;
            bend.text = (text) => (++count % 3 === 0 ? '' : text);
        },
        tips_of_the_neighbour() {
            bend.place = ([x, y]) => [x + 30, y];
        },
        titles_of_the_box_before() {
            const title = before();
            bend.saved = (text) => text.replace(/(?<=<g><title>)[^<]*/g, title);
        },
        saved_as_it_is_scrolled() {
            bend.saved = (text) => text.split('\n').filter((line) => !/<(rect|text)[^>]* y="([6-9]\d|\d{3,})/.test(line)).join('\n');
        },
    };

    faults['{fault}']();
})();
