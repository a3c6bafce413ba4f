import java.io.IOException;
import java.io.InputStream;
import java.lang.reflect.Method;
import java.util.ArrayList;
import java.util.List;
import org.objectweb.asm.ClassReader;
import org.objectweb.asm.Opcodes;
import org.objectweb.asm.Type;
import org.objectweb.asm.tree.AbstractInsnNode;
import org.objectweb.asm.tree.ClassNode;
import org.objectweb.asm.tree.FieldInsnNode;
import org.objectweb.asm.tree.InvokeDynamicInsnNode;
import org.objectweb.asm.tree.JumpInsnNode;
import org.objectweb.asm.tree.LookupSwitchInsnNode;
import org.objectweb.asm.tree.MethodInsnNode;
import org.objectweb.asm.tree.MethodNode;
import org.objectweb.asm.tree.TableSwitchInsnNode;
import org.objectweb.asm.tree.TryCatchBlockNode;
import org.objectweb.asm.tree.TypeInsnNode;
import org.objectweb.asm.tree.VarInsnNode;
import org.objectweb.asm.tree.analysis.Analyzer;
import org.objectweb.asm.tree.analysis.AnalyzerException;
import org.objectweb.asm.tree.analysis.Frame;
import org.objectweb.asm.tree.analysis.SourceInterpreter;
import org.objectweb.asm.tree.analysis.SourceValue;

/** What the byte code of a method shows, in its order: calls on fields and on this, publications, throws and marks. */
final class ByteCode {

    /** A step: a call on a field of this (or on this itself, where the field is null), with what catches its exceptions. */
    sealed interface Step permits Call, Publish, Throw, Mark, Left {}

    record Call(String field, String fieldType, String method, String descriptor, String caught) implements Step {}

    record Publish(String event) implements Step {}

    /** A throw of a new exception; it is sure where no branch and no handler stands in the method. */
    record Throw(String exception, boolean isSure) implements Step {}

    record Mark() implements Step {}

    /** What has no form in a scenario. */
    record Left(String what) implements Step {}

    private static final String PUBLISHER = "org/springframework/context/ApplicationEventPublisher";

    private final ClassNode owner;
    private final MethodNode code;
    private final Frame<SourceValue>[] frames;
    private final List<Step> steps = new ArrayList<>();

    private ByteCode(ClassNode owner, MethodNode code) throws AnalyzerException {
        this.owner = owner;
        this.code = code;
        this.frames = new Analyzer<>(new SourceInterpreter()).analyze(owner.name, code);
    }

    /** The names and descriptors of a class's methods, in the order of its file. */
    static List<String> methodsIn(Class<?> type) {
        try {
            return fileOf(type).methods.stream().map(code -> code.name + code.desc).toList();
        } catch (IOException unread) {
            System.err.println("from_java: the code of " + type + " is passed over: " + unread);
            return List.of();
        }
    }

    private static ClassNode fileOf(Class<?> type) throws IOException {
        String file = type.getName().substring(type.getName().lastIndexOf('.') + 1) + ".class";
        try (InputStream bytes = type.getResourceAsStream(file)) {
            ClassNode read = new ClassNode();
            new ClassReader(bytes).accept(read, ClassReader.SKIP_DEBUG);
            return read;
        }
    }

    /** What a method does, or null where its code can't be read. */
    static ByteCode of(Method method) {
        try {
            ClassNode owner = fileOf(method.getDeclaringClass());
            for (MethodNode code : owner.methods) {
                if (code.name.equals(method.getName()) && code.desc.equals(Type.getMethodDescriptor(method))) {
                    ByteCode read = new ByteCode(owner, code);
                    read.readSteps();
                    return read;
                }
            }
        } catch (IOException | AnalyzerException unread) {
            System.err.println("from_java: the code of " + method + " is passed over: " + unread);
        }
        return null;
    }

    List<Step> steps() {
        return steps;
    }

    boolean hasBranches() {
        for (AbstractInsnNode step : code.instructions) {
            if (step instanceof JumpInsnNode || step instanceof TableSwitchInsnNode || step instanceof LookupSwitchInsnNode) {
                return true;
            }
        }
        return false;
    }

    private void readSteps() {
        boolean isSure = !hasBranches() && code.tryCatchBlocks.isEmpty();
        for (AbstractInsnNode step : code.instructions) {
            if (frameAt(step) == null) {
                continue;
            }
            if (step instanceof MethodInsnNode call && call.getOpcode() != Opcodes.INVOKESTATIC) {
                readCall(call);
            } else if (step instanceof InvokeDynamicInsnNode lambda && lambda.bsm.getName().contains("etafactory")) {
                steps.add(new Left("what a lambda does"));
            } else if (step.getOpcode() == Opcodes.ATHROW) {
                String thrown = newTypeOf(stackAt(step, 0));
                steps.add(thrown == null ? new Left("a throw of what isn't made on the spot") : new Throw(thrown, isSure));
            }
        }
    }

    private void readCall(MethodInsnNode call) {
        if (call.name.equals("setRollbackOnly") && call.owner.startsWith("org/springframework/transaction/")) {
            steps.add(new Mark());
            return;
        }
        int arguments = Type.getArgumentTypes(call.desc).length;
        AbstractInsnNode receiver = only(stackAt(call, arguments));
        if (isThis(receiver) && call.getOpcode() == Opcodes.INVOKESPECIAL && !call.owner.equals(owner.name)) {
            steps.add(new Left("super." + call.name + "(..)"));
        } else if (isThis(receiver) && call.owner.equals(owner.name) && !call.name.equals("<init>")) {
            steps.add(new Call(null, null, call.name, call.desc, caughtAt(call)));
        } else if (receiver instanceof FieldInsnNode field && isOfThis(field)) {
            if (call.name.equals("publishEvent") && Type.getType(field.desc).getInternalName().equals(PUBLISHER)) {
                steps.add(new Publish(newTypeOf(stackAt(call, 0))));
            } else {
                steps.add(new Call(field.name, Type.getType(field.desc).getClassName(), call.name, call.desc, caughtAt(call)));
            }
        }
    }

    private Frame<SourceValue> frameAt(AbstractInsnNode step) {
        return frames[code.instructions.indexOf(step)];
    }

    /** The value so deep in the stack before a step. */
    private SourceValue stackAt(AbstractInsnNode step, int depth) {
        Frame<SourceValue> frame = frameAt(step);
        return frame.getStack(frame.getStackSize() - 1 - depth);
    }

    private static AbstractInsnNode only(SourceValue value) {
        return value.insns.size() == 1 ? value.insns.iterator().next() : null;
    }

    private boolean isThis(AbstractInsnNode step) {
        boolean isInstance = (code.access & Opcodes.ACC_STATIC) == 0;
        return isInstance && step instanceof VarInsnNode load && load.getOpcode() == Opcodes.ALOAD && load.var == 0;
    }

    private boolean isOfThis(FieldInsnNode field) {
        return field.getOpcode() == Opcodes.GETFIELD && isThis(only(stackAt(field, 0)));
    }

    /** The class of a value that was made on the spot, or null. */
    private static String newTypeOf(SourceValue value) {
        AbstractInsnNode step = only(value);
        while (step != null && step.getOpcode() == Opcodes.DUP) {
            step = step.getPrevious();
        }
        boolean isNew = step instanceof TypeInsnNode && step.getOpcode() == Opcodes.NEW;
        return isNew ? Type.getObjectType(((TypeInsnNode) step).desc).getClassName() : null;
    }

    /** The class that the innermost catch block round a step catches, or null. */
    private String caughtAt(AbstractInsnNode step) {
        int at = code.instructions.indexOf(step);
        for (TryCatchBlockNode block : code.tryCatchBlocks) {
            boolean isIn = code.instructions.indexOf(block.start) <= at && at < code.instructions.indexOf(block.end);
            if (isIn && block.type != null) {
                return Type.getObjectType(block.type).getClassName();
            }
        }
        return null;
    }
}
