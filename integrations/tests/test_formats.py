"""semscan-report --sarif and --gitlab, checked against what their schemas require and allow."""
import json
import re

from .support import InFolder, line, notice, result, run

from semscan_tools.report_line import read_report
from semscan_tools.sarif import sarif_of
from semscan_tools.sources import SourceFile

CODE = '\ufefff("\u00e9\U0001f600", g(1))\nh(g(2))\n'.encode()
TRACED = b'def f(req):\n    u = req.args.get("u")\n    if ok:\n        u = clean(u)\n    cur.execute(u)\n'

# Of each object of SARIF 2.1.0 that is written: the properties that its schema requires, and the others that it allows and are used.
SARIF = {
    'log': ({'version', 'runs'}, {'$schema'}),
    'run': ({'tool'}, {'columnKind', 'invocations', 'originalUriBaseIds', 'results'}),
    'tool': ({'driver'}, set()),
    'driver': ({'name'}, {'rules'}),
    'rule': ({'id'}, {'name', 'shortDescription', 'fullDescription', 'help', 'defaultConfiguration', 'properties'}),
    'result': ({'message'}, {'ruleId', 'ruleIndex', 'level', 'locations', 'codeFlows', 'fixes'}),
    'message': ({'text'}, set()),
    'location': (set(), {'physicalLocation', 'message'}),
    'physical': ({'artifactLocation'}, {'region'}),
    'artifact': (set(), {'uri', 'uriBaseId'}),
    'region': ({'startLine'}, {'startColumn', 'endLine', 'endColumn', 'byteOffset', 'byteLength'}),
    'flow': ({'threadFlows'}, set()),
    'thread': ({'locations'}, set()),
    'step': (set(), {'location'}),
    'fix': ({'artifactChanges'}, {'description'}),
    'change': ({'artifactLocation', 'replacements'}, set()),
    'replacement': ({'deletedRegion'}, {'insertedContent'}),
    'content': (set(), {'text'}),
    'invocation': ({'executionSuccessful'}, {'toolExecutionNotifications', 'toolConfigurationNotifications'}),
    'notification': ({'message'}, {'descriptor', 'level', 'locations'}),
    'reference': (set(), {'id'}),
}
# What stands in which property: the kind of the one object, or of each object of a list.
INSIDE = {
    'runs': 'run', 'tool': 'tool', 'driver': 'driver', 'rules': 'rule', 'results': 'result', 'message': 'message', 'locations': 'location',
    'physicalLocation': 'physical', 'artifactLocation': 'artifact', 'region': 'region', 'codeFlows': 'flow', 'threadFlows': 'thread',
    'location': 'location', 'fixes': 'fix', 'artifactChanges': 'change', 'replacements': 'replacement', 'deletedRegion': 'region',
    'insertedContent': 'content', 'invocations': 'invocation', 'toolExecutionNotifications': 'notification',
    'toolConfigurationNotifications': 'notification', 'descriptor': 'reference', 'description': 'message', 'shortDescription': 'message',
    'fullDescription': 'message', 'help': 'message',
}


class Formats(InFolder):
    """A report with a fix, a trace and notices, in both forms."""

    def written(self, form):
        self.put('some folder/\u00e4.py', CODE)
        source = [CODE.index(b'g(1)'), CODE.index(b'g(1)') + 4]
        trace = [[CODE.index(b'f('), 'Head'], [CODE.index(b'h('), 'Head']]
        results = [
            result(CODE, b'f("', 'some folder/\u00e4.py', 'no-f', 'm (CWE-79, CWE-79, CWE-1004)', 'WARNING', fix='e("'),
            result(CODE, b'g(1)', 'some folder/\u00e4.py', 'no-g', '', 'CRITICAL'),
            result(CODE, b'h(g(2))', 'some folder/\u00e4.py', 'no-h', 'two\nlines', 'HIGH', source=source, trace=trace)]
        notices = [notice('NoTree', 'b.py'), notice('BadPattern', 'r.yaml', 'old', 'rules.1.pattern')]
        found = run('semscan-report', form, cwd=self.folder, stdin=line(results, notices))
        self.assertEqual((found.returncode, found.stderr), (0, b''))
        return json.loads(found.stdout)

    def check(self, kind, value):
        """Whether an object has what the schema requires and nothing that it doesn't allow, down to the last one."""
        required, allowed = SARIF[kind]
        self.assertLessEqual(required, set(value), kind)
        self.assertLessEqual(set(value), required | allowed, kind)
        for key, inner in value.items():
            kind_inside = 'step' if (kind, key) == ('thread', 'locations') else INSIDE.get(key)
            for item in (inner if isinstance(inner, list) else [inner]) if kind_inside else []:
                self.check(kind_inside, item)

    def test_sarif_has_what_its_schema_requires(self):
        log = self.written('--sarif')
        self.check('log', log)
        run_of_log = log['runs'][0]
        self.assertEqual((log['version'], run_of_log['columnKind']), ('2.1.0', 'unicodeCodePoints'))
        names = [rule['id'] for rule in run_of_log['tool']['driver']['rules']]
        self.assertEqual(len(names), len(set(names)))
        for found in run_of_log['results']:
            self.assertEqual(names[found['ruleIndex']], found['ruleId'])
            self.assertIn(found['level'], ('none', 'note', 'warning', 'error'))

    def test_sarif_says_what_the_report_says(self):
        first, second, third = self.written('--sarif')['runs'][0]['results']
        physical = first['locations'][0]['physicalLocation']
        self.assertEqual(physical['artifactLocation'], {'uri': 'some%20folder/%C3%A4.py', 'uriBaseId': '%SRCROOT%'})
        self.assertEqual(physical['region'], {'startLine': 1, 'startColumn': 1, 'endLine': 1, 'endColumn': 4, 'byteOffset': 3, 'byteLength': 3})
        region = second['locations'][0]['physicalLocation']['region']
        self.assertEqual((region['startColumn'], region['endColumn']), (9, 13))
        replacement = first['fixes'][0]['artifactChanges'][0]['replacements'][0]
        self.assertEqual((replacement['deletedRegion'], replacement['insertedContent']), (physical['region'], {'text': 'e("'}))
        steps = third['codeFlows'][0]['threadFlows'][0]['locations']
        self.assertEqual([(step['location']['message']['text'], step['location']['physicalLocation']['region']['startLine']) for step in steps],
                         [('runs', 1), ('source', 1), ('runs', 2), ('sink', 2)])
        self.assertNotIn('codeFlows', first)
        self.assertEqual([found['level'] for found in (first, second, third)], ['warning', 'error', 'error'])
        self.assertEqual(second['message'], {'text': 'no-g'})

    def test_sarif_rules_and_notices(self):
        run_of_log = self.written('--sarif')['runs'][0]
        rule = run_of_log['tool']['driver']['rules'][0]
        self.assertEqual(rule['properties'], {'tags': ['security', 'external/cwe/cwe-079', 'external/cwe/cwe-1004'], 'security-severity': '5.0'})
        for rule in run_of_log['tool']['driver']['rules']:  # what GitHub's page on SARIF requires of a rule
            self.assertTrue(all(rule[key]['text'] for key in ('shortDescription', 'fullDescription', 'help')), rule)
        invocation = run_of_log['invocations'][0]
        self.assertEqual([notification['descriptor']['id'] for notification in invocation['toolExecutionNotifications']], ['NoTree'])
        self.assertEqual([notification['descriptor']['id'] for notification in invocation['toolConfigurationNotifications']], ['BadPattern'])

    def test_sarif_of_a_path_of_data(self):
        """The trace of docs/SCANS.md: each point of it is a step that goes to the end of its line, and the regions are those of the text."""
        given = line([result(TRACED, b'cur.execute(u)', rule='sqli', source=[20, 37], trace=[[16, 'Head'], [42, 'Head'], [74, 'Head']])])
        found, = sarif_of(read_report(given), {'a.py': SourceFile(TRACED)})['runs'][0]['results']
        flow, = found['codeFlows']
        thread, = flow['threadFlows']
        regions = [step['location']['physicalLocation']['region'] for step in thread['locations']]
        names = ('startLine', 'startColumn', 'endLine', 'endColumn', 'byteOffset', 'byteLength')
        self.assertEqual([tuple(region[name] for name in names) for region in regions], [
            (2, 5, 2, 26, 16, 21), (2, 9, 2, 26, 20, 17), (3, 5, 3, 11, 42, 6), (5, 5, 5, 19, 74, 14), (5, 5, 5, 19, 74, 14)])

    def test_sarif_doubles_braces_in_messages(self):
        """A brace of a message begins or ends a placeholder, and is doubled otherwise (section 3.11.5). The text of a fix is no message."""
        given = line([result(b'f', b'f', message='no {"a": {0}}', fix='{0}')], [notice('Regex', 'r.yaml', 'r', 'a{2}')])
        run_of_log = sarif_of(read_report(given), {'a.py': SourceFile(b'f')})['runs'][0]
        found, = run_of_log['results']
        self.assertEqual(found['message'], {'text': 'no {{"a": {{0}}}}'})
        self.assertEqual(found['fixes'][0]['artifactChanges'][0]['replacements'][0]['insertedContent'], {'text': '{0}'})
        self.assertIn('(a{{2}})', run_of_log['invocations'][0]['toolConfigurationNotifications'][0]['message']['text'])

    def test_gitlab_has_what_its_schema_requires(self):
        report = self.written('--gitlab')
        self.assertLessEqual({'version', 'vulnerabilities', 'scan'}, set(report))
        self.assertRegex(report['version'], r'^[0-9]+\.[0-9]+\.[0-9]+$')
        self.assertLessEqual({'analyzer', 'scanner', 'start_time', 'end_time', 'status', 'type'}, set(report['scan']))
        for tool in (report['scan']['analyzer'], report['scan']['scanner']):
            self.assertLessEqual({'id', 'name', 'vendor', 'version'}, set(tool))
        self.assertEqual((report['scan']['type'], report['scan']['status']), ('sast', 'success'))
        for time in (report['scan']['start_time'], report['scan']['end_time']):
            self.assertTrue(re.fullmatch(r'\d{4}-\d\d-\d\dT\d\d:\d\d:\d\d', time))
        for found in report['vulnerabilities']:
            self.assertLessEqual({'id', 'identifiers', 'location'}, set(found))
            self.assertIn(found['severity'], ('Info', 'Unknown', 'Low', 'Medium', 'High', 'Critical'))
            for identifier in found['identifiers']:
                self.assertLessEqual({'type', 'name', 'value'}, set(identifier))

    def test_gitlab_says_what_the_report_says(self):
        report, again = self.written('--gitlab'), self.written('--gitlab')
        self.assertEqual(report['vulnerabilities'], again['vulnerabilities'])
        first = report['vulnerabilities'][0]
        self.assertEqual(first['location'], {'file': 'some folder/\u00e4.py', 'start_line': 1, 'end_line': 1})
        self.assertEqual([identifier['value'] for identifier in first['identifiers']], ['no-f', '79', '1004'])
        self.assertEqual(len({found['id'] for found in report['vulnerabilities']}), 3)
